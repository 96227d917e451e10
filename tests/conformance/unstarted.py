"""The complaints of the suite about a driver that cannot be started, or says nothing. Read by
tests/conformance/run."""

import pathlib
import subprocess
import sys

from support.play import main, shows

SUITE = pathlib.Path(__file__).resolve().parent / "suite.py"


def played(*command):
    ran = subprocess.run([sys.executable, SUITE, *command], capture_output=True, text=True)
    return ran.returncode, ran.stdout, ran.stderr


@shows
def a_driver_that_cannot_be_started_is_named_with_the_cause():
    for command, cause in (
        (["./no-driver", "--its-option"], "No such file or directory"),
        (["/etc/passwd"], "Permission denied"),
        (["/"], "Permission denied"),
    ):
        fault = f"FAILED {' '.join(command)}: the driver cannot be started: {cause}\n"
        assert played(*command) == (1, f"{fault}0 passed, 1 failed\n", ""), command


@shows
def a_driver_that_ends_at_once_is_named():
    for command in ("false", "true"):
        fault = f"FAILED {command}: the client has ended\n"
        assert played(command) == (1, f"{fault}0 passed, 1 failed\n", ""), command


if __name__ == "__main__":
    main()
