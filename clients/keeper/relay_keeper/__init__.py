"""The keeper: a client of the relay that keeps rooms in a store, and puts them back after a restart
(docs/RUNNING.md, "A restart").

Documents are in memory, and with `--store FILE` also in a file that a later run goes on with. The
keeper needs no such file: it is a client like any other, so durability costs the relay one session
for each room that is being edited, and nothing else.
"""
