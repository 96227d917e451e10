"""All attacks, and how one is played to a relay that runs.

`python3 -m attacks NAME PORT ADMIN SECONDS` plays one. It prints what went wrong, or nothing."""

import sys

import by_connections, by_length, by_moves, by_number, by_output, by_refusals, by_weight
from attackers import ATTACKS, Attackers, Harm, Wrong, attack
from support import wire
from support.patience import Deadline, OutOfTime


@attack
def nothing(attackers):
    """No attack: what the machine itself makes a client wait."""
    attackers.stay(1)


def fault_of(name, port, admin, seconds):
    """Tells what an attack did that it must not, or why it was not played to its end in that time,
    or None. The attackers have left."""
    attackers = Attackers(port, admin, Deadline(seconds))
    try:
        ATTACKS[name](attackers)
    except OutOfTime:
        return f"not over within {seconds:.0f} s"
    except Harm as harm:
        return str(harm)
    except (wire.Ended, Wrong, OSError) as wrong:
        return f"an attacker: {wrong}"
    finally:
        attackers.leave()


def main(name, port, admin, seconds):
    print(fault_of(name, int(port), int(admin), float(seconds)) or "")


if __name__ == "__main__":
    main(*sys.argv[1:])
