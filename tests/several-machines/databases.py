"""PostgreSQL on two machines: a primary, and a standby to which each commit is written too."""

import pwd
import signal
import subprocess

from support.machines import NET
from support.patience import PATIENCE, until
from support.postgres import QUIET, programs, unprivileged

TRUST = f"host all all {NET}.0/24 trust\nhost replication all {NET}.0/24 trust\n"
SETTINGS = ("listen_addresses=*", "max_connections=40", "wal_level=replica")
# Each commit waits for the standby, which has none of its own when it is promoted.
SYNCHRONOUS = "ALTER SYSTEM SET synchronous_standby_names = '*'"


class Database:
    """One of them, in a folder."""

    def __init__(self, machine, folder):
        self.machine, self.folder, self.server = machine, folder, None
        folder.mkdir()
        user = pwd.getpwnam("postgres")
        subprocess.run(["chown", "postgres:postgres", folder], check=True)
        self.as_postgres = ["setpriv", f"--reuid={user.pw_uid}", f"--regid={user.pw_gid}"]
        self.as_postgres += ["--clear-groups"]

    def initialize(self):
        words = [programs() / "initdb", "-D", "base", "-U", "postgres", "--auth=trust"]
        words += ["--encoding=UTF8", "--locale=C", "--no-sync"]
        subprocess.run(words, cwd=self.folder, check=True, **QUIET, **unprivileged())
        with open(self.folder / "base/pg_hba.conf", "a") as rules:
            rules.write(TRUST)

    def copy(self, primary):
        """Becomes the standby of another one."""
        words = [programs() / "pg_basebackup", "-h", primary.machine.address, "-U", "postgres"]
        words += ["-D", "base", "-R", "--checkpoint=fast", "--no-sync"]
        words = self.machine.words(*self.as_postgres, *words)
        subprocess.run(words, cwd=self.folder, check=True, **QUIET)

    def start(self):
        words = [*self.as_postgres, programs() / "postgres", "-D", "base"]
        for setting in (*SETTINGS, f"unix_socket_directories={self.folder}"):
            words += ["-c", setting]
        self.server = self.machine.start(*words, cwd=self.folder, **QUIET)
        until(self.is_up)

    def is_up(self):
        assert self.server.poll() is None, "postgres does not start"
        words = [programs() / "pg_isready", "-q", "-h", self.machine.address]
        return subprocess.run(words, **QUIET).returncode == 0

    def sql(self, statement):
        """Returns what psql prints of it."""
        words = [programs() / "psql", "-X", "-q", "-A", "-t", "-h", self.machine.address]
        words += ["-U", "postgres", "-c", statement]
        told = subprocess.run(words, check=True, stdout=subprocess.PIPE, text=True)
        return told.stdout.strip()

    def is_synchronous(self):
        return self.sql("SELECT sync_state FROM pg_stat_replication") == "sync"

    def promote(self):
        self.sql("SELECT pg_promote()")

    def end(self):
        if self.server and self.server.poll() is None:
            self.server.send_signal(signal.SIGQUIT)
            self.server.wait(PATIENCE)


def started(stack, folder, machines):
    """A primary and its standby."""
    primary, standby = (Database(it, folder / it.name) for it in machines)
    for database in (primary, standby):
        stack.callback(database.end)
    primary.initialize()
    primary.start()
    standby.copy(primary)
    standby.start()
    primary.sql(SYNCHRONOUS)
    primary.sql("SELECT pg_reload_conf()")
    until(primary.is_synchronous)
    return primary, standby
