"""Plays the commands of documents in a fresh Debian, whose folder is the first word: fresh.py
FOLDER [TEST..]. Each `sh` block is cut into its commands; each is played, or named in APART."""

import atexit
import functools
import json
import pathlib
import re
import subprocess
import sys
import textwrap
import time
import zipfile

from support.patience import PATIENCE, until
from support.play import main, shows
from support.relay import ROOT

FRESH = pathlib.Path(sys.argv.pop(1))
HOME, PACKAGES = "/root/relay", "/root/packages"
# What is not played here, by how it begins, and what plays or checks it.
APART = {
    "./relay --try": "needs the kit: tests/building plays the launcher; here the installed program",
    "xdg-open": "needs a desktop: tests/page opens the page in a browser",
    ".ci/run": "is the gate, which plays this",
    "RELAY=crates/relay/out/tried": "needs the kit: the gate plays tests/scripts/run",
    "install -m 640 -g www-data": "asks a person for a password: tests/behind-nginx gives a word",
    'echo "anna:$(openssl': "asks a person for a password: tests/behind-nginx gives a word",
    "sqlite3 FILE": "puts back a backup: tests/kept plays it",
    "apt-get install ./relay_0.2.0_amd64.deb ./relay-keeper": "needs four machines: "
    "tests/several-machines plays these units, and tests/release has systemd verify them",
    "install -D -m 644 /usr/share/doc/relay/docs/running/relay-share": "as the line before",
    "install -m 600 /dev/stdin /etc/default/relay-keeper-share": "as the line before",
    "systemctl enable --now relay-keeper-share": "as the line before",
}
WHEELS = "/root/wheels"  # in place of the Python Package Index


def commands(document):
    """Those of its `sh` blocks, each as it stands."""
    text = (ROOT / document).read_text()
    for block in re.findall(r"^ *```sh\n(.*?)^ *```$", text, re.M | re.S):
        part = ""
        for line in textwrap.dedent(block).splitlines(keepends=True):
            part += line
            read = subprocess.run(["bash", "-n"], input=part, capture_output=True, text=True)
            if not read.returncode and not read.stderr and not part.endswith("\\\n"):
                yield part
                part = ""
        assert not part, part


def inline(document, words):
    """These words, which the document has among its prose."""
    text = " ".join((ROOT / document).read_text().split())
    assert f"`{words}`" in text, f"{document} does not say `{words}`"
    return words


def snippet(document, language):
    text = (ROOT / document).read_text()
    return re.search(rf"^```{language}\n(.*?)^```$", text, re.M | re.S)[1]


@functools.lru_cache(maxsize=None)
def inside():
    """Words by which a command runs there: one namespace for all, without a network."""
    begin = f"""ip link set lo up && mount -t proc proc {FRESH}/proc &&
        mount -t tmpfs none {FRESH}/dev/shm && exec chroot {FRESH} sleep infinity"""
    words = ["unshare", "--net", "--pid", "--mount", "--fork", "--kill-child", "sh", "-c", begin]
    held = subprocess.Popen(words)
    atexit.register(held.kill)
    children = pathlib.Path(f"/proc/{held.pid}/task/{held.pid}/children")
    until(lambda: children.read_text().split())
    [child] = children.read_text().split()
    until(lambda: pathlib.Path(f"/proc/{child}/comm").read_text() == "sleep\n")
    return ["nsenter", "--net", "--pid", "--mount", "-t", child, "chroot", str(FRESH)]


def words_of(script, folder):
    given = ["env", "-i", "HOME=/root", "PATH=/usr/local/bin:/usr/bin:/bin:/usr/sbin:/sbin"]
    given += ["DEBIAN_FRONTEND=noninteractive", "PIP_NO_INDEX=1", f"PIP_FIND_LINKS={WHEELS}"]
    return [*inside(), *given, "bash", "-euo", "pipefail", "-c", f"cd {folder}\n{script}"]


def run(script, folder=HOME):
    ran = subprocess.run(
        words_of(script, folder),
        stdin=subprocess.DEVNULL,
        stdout=subprocess.PIPE,
        stderr=subprocess.STDOUT,
        text=True,
        timeout=5 * PATIENCE,
    )
    assert ran.returncode == 0, f"{script}: {ran.returncode}\n{ran.stdout}"
    return ran.stdout


class Running:
    """A command that goes on, until what it prints has this line. It is ended by its number there,
    since the words that enter the folder are a process before it."""

    def __init__(self, script, line, folder=HOME):
        how = {"stdin": subprocess.DEVNULL, "stdout": subprocess.PIPE, "text": True}
        words = words_of(f"echo $$; exec {script}", folder)
        self.process = subprocess.Popen(words, **how)
        self.number = self.process.stdout.readline().strip()
        for said in self.process.stdout:
            if re.fullmatch(line, said.rstrip("\n")):
                return
        raise AssertionError(f"{script}: it ends without a line {line}")

    def __enter__(self):
        return self

    def __exit__(self, *_):
        run(f"kill {self.number}")
        self.process.wait(PATIENCE)


def play(document, folder=HOME):
    """All commands of a document that are not apart, in its order. What they print. A relay that
    one of them starts answers before the next."""
    said = []
    for command in commands(document):
        if not any(command.startswith(begin) for begin in APART):
            said.append(run(command, folder))
            begun = re.match(r"systemctl (?:re)?start relay@(\d+)", command)
            until(lambda: not begun or health(int(begun[1]) + 1000))
    return "".join(said)


def as_wheel():
    """Debian's package of websockets as a wheel, since no index can be asked."""
    folder = FRESH / WHEELS[1:]
    folder.mkdir(exist_ok=True)
    for wheel in (FRESH / "usr/share/python-wheels").glob("*.whl"):
        (folder / wheel.name).write_bytes(wheel.read_bytes())
    packages = FRESH / "usr/lib/python3/dist-packages"
    name, version = "websockets", next(packages.glob("websockets-*")).name.split("-")[1]
    facts = f"{name}-{version.removesuffix('.egg')}.dist-info"
    with zipfile.ZipFile(folder / f"{facts[:-10]}-py3-none-any.whl", "w") as wheel:
        for file in (packages / name).rglob("*.py"):
            wheel.write(file, file.relative_to(packages))
        metadata = f"Metadata-Version: 2.1\nName: {name}\nVersion: {facts[11:-10]}\n"
        wheel.writestr(f"{facts}/METADATA", metadata)
        kind = "Wheel-Version: 1.0\nRoot-Is-Purelib: true\nTag: py3-none-any\n"
        wheel.writestr(f"{facts}/WHEEL", kind)
        wheel.writestr(f"{facts}/RECORD", "")


@shows
def each_command_that_is_apart_is_in_a_document():
    documents = ("README.md", "docs/CLIENTS.md", "docs/HTTP.md", "docs/RUNNING.md")
    there = [command for document in documents for command in commands(document)]
    for begin in APART:
        assert any(command.startswith(begin) for command in there), begin


@shows
def the_package_is_installed_as_running_says():
    checked = run(inline("docs/RUNNING.md", "sha256sum --ignore-missing -c SHA256SUMS"), PACKAGES)
    assert "relay_0.2.0_amd64.deb: OK" in checked, checked
    words = "apt-get install ./relay_0.2.0_amd64.deb curl nginx openssl"
    run(inline("docs/RUNNING.md", words), PACKAGES)
    assert run("relay --version") == run("cat tools/help/version.txt")


@shows
def readme_in_a_checkout_without_the_kit():
    assert run("./relay --help 2>/dev/null") == play("README.md").split("\n./relay builds")[0]


@shows
def readmes_clients():
    as_wheel()
    (FRESH / HOME[1:] / "demo.mjs").write_text(snippet("README.md", "js"))
    (FRESH / HOME[1:] / "demo.py").write_text(snippet("README.md", "python"))
    run(inline("README.md", "python3 -m venv .venv && .venv/bin/pip install ./clients/python"))
    node = inline("README.md", "node --experimental-websocket demo.mjs")
    with Running("relay serve --port 8080", "listening 8080"):
        with Running(f"{node} 2>/dev/null", r"2 \[ \[ 'milk' \] \]"):
            with Running(".venv/bin/python -u demo.py", r"\d \[\[\['milk', 'bread'\]\]\]"):
                pass


@shows
def readmes_page_is_served_with_the_module():
    serve = inline("README.md", "python3 -m http.server")
    with Running(f"{serve.replace('python3', 'python3 -u')} 2>&1", "Serving HTTP on .*"):
        kind = "curl -fsS -o /dev/null -w '%{content_type}'"
        assert (
            run(f"{kind} http://localhost:8000/clients/javascript/relay.mjs") == "text/javascript"
        )


@shows
def the_command_of_clients_in_a_shell():
    """As it is with the environment of README's Python."""
    with Running("relay serve --port 8080", "listening 8080"):
        for command in commands("docs/CLIENTS.md"):
            if command.startswith("relay-client watch"):
                with Running(f".venv/bin/{command}", r'\{"rev":1,"slots":\[\[1\]\]\}'):
                    pass
            elif command.startswith("relay-client"):
                assert json.loads(run(f".venv/bin/{command}")) is not None, command


@shows
def http_from_a_new_relay():
    begins, *rest = commands("docs/HTTP.md")
    with Running(begins.strip(), "listening 8081"):
        for command in rest:
            assert "HTTP/1.1 200 OK" in run(command), command
        run(f"python3 - <<'END'\n{snippet('docs/HTTP.md', 'python')}END")
        assert '{"number":1}' in run(rest[-2])


@shows
def running_from_the_unit_to_the_keeper_in_a_database():
    run("pg_ctlcluster $(ls /etc/postgresql) main start")
    run(inline("docs/RUNNING.md", "systemctl enable --now relay@8081 relay@8082"))
    for admin in (9081, 9082):
        until(lambda admin=admin: is_up(admin))
    play("docs/RUNNING.md", PACKAGES)
    edit = """curl -fsS -X PATCH http://127.0.0.1:9081/rooms/kept -d '[{"op":"add","path":"",
        "value":1}]' -H 'Content-Type: application/json-patch+json'"""
    run(edit)
    store = "--store postgresql://keeper@127.0.0.1/rooms --relay relay-8081"
    until(lambda: "kept" in run(f"PGPASSWORD=secret relay-keeper export {store}"))
    # The relay with a store runs over the backup, and its files from before are beside it.
    assert is_up(9082)
    run("cd /var/lib/relay/8082 && ls rooms.db before.*/rooms.db")


def health(admin):
    time.sleep(0.2)
    return run(f"curl -s http://127.0.0.1:{admin}/health || true")


def is_up(admin):
    return health(admin) == "ok\n"


main()
