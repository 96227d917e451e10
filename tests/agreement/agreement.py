#!/usr/bin/env python3
"""Compares the clients with the relay, and with each other: tests/agreement/run [CASES] [SEED]

A client translates its own edit to the slots of its view, to show it before the relay does. Here it
is told random views, their slots, and patches that the relay then does, and each slot is compared:
it shows what the relay shows, or stays as it was. It may stay only if the relay tells something of
it that the slots cannot tell: another element that moved there, a value from outside the slots, a
size. The clients in Python and JavaScript translate alike. Those, and the one in Go, follow what
the relay tells a watcher of the patches."""
import collections, json, os, random, sys, time
from cases import PATCHES, group
from clients import DRIVERS, TRANSLATORS, Failed, Follower
from judge import Wrong, judge, text
from plays import relay_plays

GROUPS = 1000
"""Groups of cases that one run of the program plays: a script has at most 65,536 lines."""


def main(cases=2000, seed=1):
    chance, begun = random.Random(int(seed)), time.monotonic()
    counts, followed = {name: collections.Counter() for name in TRANSLATORS}, collections.Counter()
    played = accepted = 0
    while played < int(cases):
        left = -(-(int(cases) - played) // PATCHES)
        groups = relay_plays(os.environ["RELAY"], [group(chance) for _ in range(min(left, GROUPS))])
        batch = [case for group in groups for case in group.cases]
        played += len(batch)
        accepted += sum(case.accepted for case in batch)
        compare(batch, counts)
        for name in DRIVERS:
            followed[name] += follow(name, groups)
    print(f"{played} cases, {accepted} of them accepted, in {time.monotonic() - begun:.0f} seconds")
    for name, count in counts.items():
        print(
            f"{name} agrees: "
            + ", ".join(f"{number} {what}" for what, number in sorted(count.items()))
        )
        if count["left"] > count["exact"] or not count["exact"]:
            sys.exit(f"{name} leaves more slots than it translates")
    for name, patches in followed.items():
        print(f"{name} follows {patches} patches of the relay")
        if not patches:
            sys.exit("the relay told nothing")


def compare(batch, counts):
    translations = {
        name: translates([case.asked for case in batch]) for name, translates in TRANSLATORS.items()
    }
    for name, all_of_it in translations.items():
        if len(all_of_it) != len(batch):
            sys.exit(f"{name}: {len(all_of_it)} translations of {len(batch)} cases")
    for case, *ones in zip(batch, *translations.values()):
        for name, one in zip(translations, ones):
            try:
                counts[name].update(judge(case, one))
            except Wrong as wrong:
                fail(f"{name}: {wrong}", case)
        if len({text(shown(one)) for one in ones}) > 1:
            fail(f"{' and '.join(translations)} differ: {ones}", case)


def shown(translation):
    """The part that has to be alike: of an inverse one client may know more than another."""
    return {**translation, "undone": None} if isinstance(translation, dict) else translation


def follow(name, groups):
    """Gives how many patches a client applied."""
    try:
        follower = Follower(name)
        patches = sum(map(follower.follow, groups))
        follower.quit()
    except (Wrong, Failed) as wrong:
        sys.exit(f"{name}: {wrong}")
    return patches


def fail(wrong, case):
    words = {"view": case.view, "slots": case.before, "patch": case.patch}
    sys.exit(f"{wrong}\n{json.dumps(words, ensure_ascii=False)}")


if __name__ == "__main__":
    main(*sys.argv[1:])
