"""Facts that Linux tells of a process, and the limits that it lets one have."""

import os
import pathlib
import re
import resource


def memory(pid, member="VmRSS"):
    """Bytes: VmRSS is resident, VmHWM its peak, VmSize addresses, VmPeak their peak. 0 if it is
    gone."""
    status = pathlib.Path(f"/proc/{pid}/status").read_text()
    found = re.search(rf"^{member}:\s+(\d+) kB", status, re.M)
    return int(found[1]) * 1024 if found else 0


def cpu_seconds(pid):
    """CPU time of all threads so far, by the clock's ticks."""
    fields = pathlib.Path(f"/proc/{pid}/stat").read_text().rpartition(")")[2].split()
    return (int(fields[11]) + int(fields[12])) / os.sysconf("SC_CLK_TCK")


def limited(**limits):
    """For `preexec_fn`: the child has these limits, as AS=1 << 30."""

    def limit():
        for name, most in limits.items():
            resource.setrlimit(getattr(resource, f"RLIMIT_{name}"), (most, most))

    return limit


def open_files():
    """This process, and its children, may have as many open files as the system allows."""
    most = resource.getrlimit(resource.RLIMIT_NOFILE)[1]
    resource.setrlimit(resource.RLIMIT_NOFILE, (most, most))
