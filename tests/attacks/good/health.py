"""The operator, who asks `GET /health` each 50 ms, and tells how long the longest answer took, from
before its connection is made. Each answer will do."""

import sys

from good.beside import Waits, periods, witness
from support import asking, wire

PERIOD = 0.05
PATIENCE = 8
HEALTH = asking.head("GET /health HTTP/1.1")


def answer(port):
    """Returns the bytes of the answer, or none. `Ended` if it does not come within PATIENCE."""
    try:
        with wire.connected(port, seconds=PATIENCE) as stream:
            stream.sendall(HEALTH)
            return wire.all_of(stream)
    except TimeoutError:
        raise wire.Ended(f"not answered within {PATIENCE} s") from None
    except OSError as fault:
        raise wire.Ended(f"ended: {fault.strerror}") from None


class Operator:
    def __init__(self, port):
        self.port, self.waits = port, Waits()

    def play(self):
        """Asks until it is to end. Returns what went wrong."""
        for begun in periods(PERIOD):
            said, fault = b"", "ended without an answer"
            try:
                said = answer(self.port)
            except wire.Ended as ended:
                fault = str(ended)
            self.waits.end(begun, said.startswith(b"HTTP/1.1 "))
            if not said:
                return fault
        return None


if __name__ == "__main__":
    operator = Operator(int(sys.argv[1]))
    witness(operator.play, operator.waits)
