"""The words `list`, `export`, `import` and `restore`: what they print, and their status, for each
store."""

import contextlib
import json
import pathlib
import subprocess
import tempfile

from keeper import says, words_of
from relay_keeper.lines import BadLine, imported
from relay_keeper.state import State, now
from relay_keeper.stores import opened
from support.play import main, shows
from support.postgres import cluster

NOBODY = "http://127.0.0.1:1"
SHARE = ("share", "ws://127.0.0.1:1", "--admin", "http://127.0.0.1:1")
FIRST, SECOND = {"cards": ["milk", "\x00 é \t\n"]}, [1, None, {"a/b": {}}]


def stores(database):
    """A new one of each kind, by its address."""
    with tempfile.TemporaryDirectory() as folder:
        yield f"files:{folder}/kept"
        yield f"sqlite:{folder}/kept.db"
        yield database.database()


def filled(where):
    """With three rooms, one of which was put aside."""
    with contextlib.closing(opened(where)) as store:
        assert store.take()
        at = now() - 90_000
        store.put(State("board", 7, 3, FIRST, at))
        store.put(State("other", 9_007_199_254_740_991, 12, SECOND, at))
        store.put(State("third", None, 0, None, at))
        return store.list()


def run(*words, given=""):
    """Standard output, standard error and status."""
    ran = subprocess.run(words_of(*words), input=given, capture_output=True, text=True)
    return ran.stdout, ran.stderr, ran.returncode


@shows
def it_lists_name_revision_epoch_bytes_and_age(database):
    for where in stores(database):
        entries = {it.room: it for it in filled(where)}
        told, _, status = run("list", "--store", where)
        rows = [line.split("\t") for line in told.splitlines()]
        assert status == 0 and [row[0] for row in rows] == ["board", "other", "third"], told
        assert [row[1:3] for row in rows] == [
            ["3", "7"],
            ["12", "9007199254740991"],
            ["0", "none"],
        ], rows
        assert all(int(row[3]) == entries[row[0]].bytes for row in rows), rows
        assert all(90 <= int(row[4]) < 190 for row in rows), rows
        told, _, _ = run("list", "other", "--store", where, "--match", "th*")
        assert [line.split("\t")[0] for line in told.splitlines()] == ["other", "third"], told


@shows
def what_it_exports_it_imports(database):
    """From each store into each other one, and what is there already is newer nowhere."""
    texts = []
    for where in stores(database):
        filled(where)
        told, _, status = run("export", "--store", where)
        assert status == 0 and len(told.splitlines()) == 3, told
        texts.append([{**json.loads(line), "at": 0} for line in told.splitlines()])
        for other in stores(database):
            written, _, status = run("import", "--store", other, given=told)
            assert status == 0 and written.startswith("3 rooms written, 0 left out"), written
            assert run("export", "--store", other) == (told, "", 0), other
    assert texts[0] == texts[1] == texts[2]


@shows
def of_a_database_of_several_relays_one_is_named(database):
    """Otherwise a backup would be empty, or without the rooms of the others, and look right."""
    for where in stores(database):
        if where.startswith("files:"):
            continue
        for relay, room in (("boards", "one"), ("relay-8081", "two")):
            with contextlib.closing(opened(where, relay)) as store:
                assert store.take()
                store.put(State(room, 7, 1, room, 1))
        asks = (["list"], ["export"], ["restore", "one"], ["restore", "--admin", NOBODY])
        for words in [*asks, *([*words, "--relay", "roards"] for words in asks)]:
            told, fault, status = run(*words, "--store", where)
            assert (told, status) == ("", 1), (words, told, status)
            assert "of these relays: boards, relay-8081; name one by --relay\n" in fault, fault
        told, fault, status = run("export", "--store", where, "--relay", "boards")
        assert (fault, status) == ("", 0) and json.loads(told)["room"] == "one", (told, fault)
        with contextlib.closing(opened(where)) as store:
            assert store.take()
            store.put(State("third", 7, 1, 3, 1))
        told, fault, status = run("export", "--store", where)
        assert (told, status) == ("", 1) and "boards, relay, relay-8081; name" in fault, fault


@shows
def an_older_revision_is_left_out(database):
    for where in stores(database):
        filled(where)
        told, _, _ = run("export", "board", "--store", where)
        state = json.loads(told)
        for revision, wrote in ((2, "0 rooms written, 1 left"), (4, "1 rooms written, 0 left")):
            line = json.dumps({**state, "revision": revision, "document": revision})
            written, _, status = run("import", "--store", where, given=line)
            assert status == 0 and written.startswith(wrote), written
        assert json.loads(run("export", "board", "--store", where)[0])["document"] == 4


@shows
def a_line_that_is_no_state_is_named(database):
    whole = {"room": "board", "epoch": 7, "revision": 1, "at": 1, "document": 1}
    bad = ["", "[]", "{", '{"room":"board"}', json.dumps({**whole, "room": "a/b"})]
    bad += [json.dumps({**whole, "revision": it}) for it in (-1, "1", None, True, 2**53)]
    for line in bad:
        try:
            imported(line, 2)
        except BadLine as told:
            assert str(told).startswith("line 2: no state"), told
        else:
            raise AssertionError(line)
    for where in stores(database):
        told, fault, status = run("import", "--store", where, given=f"{json.dumps(whole)}\n[]\n")
        assert status == 1 and fault.startswith("relay-keeper: line 2: no state"), fault
        assert run("list", "--store", where)[0].startswith("board\t1\t7\t")


@shows
def an_older_state_is_listed_and_put_back(database):
    for where in stores(database):
        with contextlib.closing(opened(where, history=3, apart=0)) as store:
            assert store.take()
            for revision in range(1, 4):
                store.put(State("board", 7, revision, revision, revision * 1000))
            told, fault, status = run("restore", "board", "19700101T000001", "--store", where)
            assert status == 1 and "a keeper runs on" in fault and "by --url" in fault, fault
            _, fault, status = run("import", "--store", where)
            assert status == 1 and fault.endswith(": stop it first\n"), fault
        told, _, status = run("restore", "--store", where, "board")
        assert status == 0 and [line.split()[0] for line in told.splitlines()] == [
            "19700101T000002.000Z",
            "19700101T000001.000Z",
        ], told
        told, fault, status = run("restore", "--store", where, "board", "19700101T000001")
        assert status == 0 and "set aside as 19700101T000003.000Z" in told, (told, fault)
        kept = json.loads(run("export", "--store", where)[0])
        assert (kept["document"], kept["epoch"]) == (1, None), kept
        assert "set aside" in run("restore", "--store", where, "board")[0]
        _, fault, status = run("restore", "--store", where, "board", "2000")
        assert status == 1 and "0 states begin with 2000" in fault, fault


@shows
def wrong_words_have_a_status_of_their_own(_):
    for words, status in (
        ([], 2),
        (["keeps"], 2),
        (["list"], 2),
        (["list", "--store", "x", "--all"], 2),
        (["import", "--store", "x", "room"], 2),
        (["keep", "ws://127.0.0.1:1", "--pace", "0", "--store", "x", "room"], 2),
        (["keep", "ws://127.0.0.1:1", "--history", "0", "--store", "x", "room"], 2),
        (["keep", "ws://127.0.0.1:1"], 1),
        (["share", "ws://127.0.0.1:1", "--store", "postgresql://x"], 2),
        ([*SHARE, "--store", "sqlite:x"], 1),
        ([*SHARE, "--store", "postgresql://nobody@/none?host=/nowhere"], 1),
        (["restore"], 1),
        (["restore", "--store", "x", "board", "2", "3"], 1),
        (["list", "--store", "nothing://x"], 1),
        (["list", "--store", "sqllite:x"], 1),
        (["list", "--store", "sqlite:"], 1),
        (["list", "--store", "files:"], 1),
        (["list", "--store", ""], 1),
        (["list", "--store", "/nowhere/at/all"], 1),
        (["list", "--store", "sqlite:/nowhere/at/all"], 1),
    ):
        told, fault, found = run(*words)
        assert (found, told) == (status, ""), (words, found, told, fault)
        assert fault.startswith("usage:" if status == 2 else "relay-keeper: "), (words, fault)
        assert "Traceback" not in fault, fault


@shows
def a_mistyped_kind_of_store_makes_no_folder(_):
    """A folder whose name has a colon is given by a path."""
    with tempfile.TemporaryDirectory() as folder:
        for where in ("sqllite:x", "postgresql:x", "file:x"):
            told = subprocess.run(
                words_of("list", "--store", where), capture_output=True, text=True, cwd=folder
            )
            wanted = "a store is files:FOLDER, sqlite:PATH, postgresql://.. or a folder, as ./NAME"
            assert told.returncode == 1 and wanted in told.stderr, told
        assert not any(pathlib.Path(folder).iterdir())
        for name, where in (("a:b", f"{folder}/a:b"), ("c:d", f"files:{folder}/c:d")):
            filled(where)
            assert pathlib.Path(folder, name).is_dir() and run("list", "--store", where)[0]


@shows
def each_word_has_help_with_an_example(_):
    for word in ("keep", "share", "restore", "list", "export", "import"):
        told, status = says(word, "--help")
        flat = " ".join(told.split())
        assert status == 0 and f"Example: relay-keeper {word} " in flat, told
        assert "Exit status: 0" in flat, told
        if word == "keep":
            assert "else of the store and of --list; may be given again" in flat, told


if __name__ == "__main__":
    with cluster() as started:
        main(started)
