"""A private cluster of PostgreSQL, on a Unix socket alone, which ends with the test."""

import contextlib
import os
import pathlib
import pwd
import signal
import subprocess
import tempfile

from support.patience import PATIENCE, until

QUIET = {"stdout": subprocess.DEVNULL, "stderr": subprocess.DEVNULL}
SETTINGS = ("listen_addresses=", "unix_socket_directories=.", "max_connections=40")


def programs():
    """The folder of the newest ones that Debian has here; None if there are none."""
    found = pathlib.Path("/usr/lib/postgresql").glob("*/bin/initdb")
    newest = max(found, key=lambda it: float(it.parents[1].name), default=None)
    return newest and newest.parent


def unprivileged():
    """PostgreSQL does not run as root: the words for a child that does not either."""
    if os.geteuid() != 0:
        return {}
    user = pwd.getpwnam("postgres")
    return {"user": user.pw_uid, "group": user.pw_gid, "extra_groups": []}


class Cluster:
    def __init__(self, folder):
        self.folder, self.server, self.names = pathlib.Path(folder), None, 0
        if user := unprivileged():
            os.chown(folder, user["user"], user["group"])
        words = [programs() / "initdb", "-D", self.folder / "base", "-U", "postgres"]
        words += ["--auth=trust", "--encoding=UTF8", "--locale=C", "--no-sync"]
        subprocess.run(words, cwd=folder, check=True, **QUIET, **unprivileged())

    def start(self):
        words = [programs() / "postgres", "-D", "base"]
        for setting in SETTINGS:
            words += ["-c", setting.replace("=.", f"={self.folder}")]
        self.server = subprocess.Popen(words, cwd=self.folder, **QUIET, **unprivileged())
        until(self.is_up)

    def is_up(self):
        assert self.server.poll() is None, "postgres does not start"
        words = [programs() / "pg_isready", "-q", "-h", self.folder]
        return subprocess.run(words, **QUIET).returncode == 0

    def database(self):
        """The address of a new one."""
        self.names += 1
        name = f"test{self.names}"
        self.sql(f"CREATE DATABASE {name}")
        return self.address(name)

    def address(self, name="postgres"):
        return f"postgresql://postgres@/{name}?host={self.folder}"

    def sql(self, statement, address=None):
        """Returns what psql prints of it."""
        words = [programs() / "psql", "-X", "-q", "-A", "-t", "-c", statement]
        words.append(address or self.address())
        told = subprocess.run(words, check=True, stdout=subprocess.PIPE, text=True)
        return told.stdout.strip()

    def stop(self):
        """At once, and the sessions with it."""
        if self.server and self.server.poll() is None:
            self.server.send_signal(signal.SIGINT)
            self.server.wait(PATIENCE)


@contextlib.contextmanager
def cluster():
    with tempfile.TemporaryDirectory() as folder:
        made = Cluster(folder)
        try:
            made.start()
            yield made
        finally:
            made.stop()
