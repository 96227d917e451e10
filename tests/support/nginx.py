"""nginx with the configuration of docs/running, but for its ports, its files and its relays. The
password of `anna` is `secret`."""

import os
import pathlib
import re
import shutil
import subprocess

from support.patience import until
from support.ports import free_port
from support.relay import ROOT
from support.wire import listens

CONF = """\
daemon off; pid {folder}/pid; error_log {folder}/error.log;{user}
worker_processes {workers}; worker_rlimit_nofile {files};
events {{ worker_connections {connections}; }}
http {{ access_log off; {paths} include {folder}/relay.conf; }}
"""
PATHS = ("client_body", "proxy", "fastcgi", "uwsgi", "scgi")


class Nginx:
    """Runs in a folder, in front of relays on these ports, or of relays of several machines at
    these addresses, which share their rooms. Of one worker it is known that it deals connections in
    turn where no rule says where they go. `before` are words in front of the program."""

    def __init__(self, folder, relays, connections=512, workers=1, address="127.0.0.1", before=()):
        self.folder, self.port, self.address = pathlib.Path(folder), free_port(), address
        self.certificate = self.folder / "relay.pem"
        self._certify()
        self._set_password()
        self._configure(relays, connections, workers)
        path = f"{os.environ['PATH']}:/usr/sbin"
        words = [shutil.which("nginx", path=path), "-p", folder, "-c", self.folder / "nginx.conf"]
        self.process = subprocess.Popen([*before, *words], stderr=subprocess.DEVNULL)
        until(lambda: listens(self.port, address) or self.process.poll() is not None)
        if self.process.poll() is not None:
            error = (self.folder / "error.log").read_text()
            raise SystemExit(f"nginx does not start: {error}")

    def url(self, room, who="anna:secret"):
        return f"wss://{who}@localhost:{self.port}/rooms/{room}"

    def end(self):
        self.process.terminate()
        self.process.wait()

    def _certify(self):
        kind = ["-newkey", "ec", "-pkeyopt", "ec_paramgen_curve:P-256", "-nodes", "-days", "1"]
        names = ["-subj", "/CN=localhost", "-addext", "subjectAltName=DNS:localhost"]
        files = ["-keyout", self.folder / "relay.key", "-out", self.certificate]
        words = ["openssl", "req", "-x509", *kind, *names, *files]
        subprocess.run(words, check=True, stderr=subprocess.DEVNULL)

    def _set_password(self):
        """By the commands of docs/RUNNING.md, with a word in place of the question for it. Only
        root can give a file to a group."""
        own = subprocess.run(
            ["id", "-gn"], capture_output=True, text=True, check=True
        ).stdout.strip()
        lines = (ROOT / "docs/RUNNING.md").read_text().splitlines()
        wanted = re.compile(r" *(install|echo) .*/etc/nginx/relay\.passwords")
        commands = "\n".join(line for line in lines if wanted.match(line))
        for old, new in {
            "/etc/nginx/": f"{self.folder}/",
            "-g www-data": f"-g {'www-data' if os.getuid() == 0 else own}",
            "openssl passwd -6": "openssl passwd -6 secret",
        }.items():
            commands = commands.replace(old, new)
        subprocess.run(["sh", "-eu"], input=commands, text=True, check=True)

    def _configure(self, relays, connections, workers):
        conf = (ROOT / "docs/running/nginx.conf").read_text()
        if isinstance(relays[0], str):
            conf = re.sub(r"upstream relays {.*?\n}\n", several(relays), conf, flags=re.S)
            conf = conf.replace("proxy_next_upstream off;", "proxy_next_upstream error timeout;")
        else:
            servers = "".join(f"    server 127.0.0.1:{port} max_fails=0;\n" for port in relays)
            conf = re.sub(r"( *server 127\.0\.0\.1:\d+ max_fails=0;\n)+", servers, conf)
        conf = conf.replace("listen 443", f"listen {self.address}:{self.port}")
        for place in ("/etc/ssl/relay.", "/etc/nginx/relay.", "/srv/relay"):
            conf = conf.replace(place, f"{self.folder}/{pathlib.Path(place).name}")
        (self.folder / "relay.conf").write_text(conf)
        paths = "".join(f"{name}_temp_path {self.folder}/{name};" for name in PATHS)
        user = " user www-data;" if os.getuid() == 0 else ""
        words = {"folder": self.folder, "user": user, "files": 2 * connections, "paths": paths}
        text = CONF.format(connections=connections, workers=workers, **words)
        (self.folder / "nginx.conf").write_text(text)
        self.folder.chmod(0o755)


def several(relays):
    """The block of relays of several machines."""
    block = (ROOT / "docs/running/nginx-several.conf").read_text().partition("\n\n")[2]
    words = re.search(r"max_fails=1 [^;]*", block)[0]
    servers = "".join(f"    server {relay} {words};\n" for relay in relays)
    return re.sub(r"( *server [\d.]+:\d+ max_fails=1 .*;\n)+", servers, block)
