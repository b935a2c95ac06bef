"""What a run of a program takes, as `compare.py` and `rows.py` measure it."""
import ctypes
import os
import sys
import time
from collections import namedtuple

# Seconds of one processor, user and system; seconds by the clock; the peak of the memory in MB; and the bytes that were
# handed to the system to be written.
Used = namedtuple("Used", "processor clock peak written")


def adopt_orphans():
    """Has orphans come to this process, as `measure` needs it."""
    ctypes.CDLL(None).prctl(36, 1, 0, 0, 0)  # PR_SET_CHILD_SUBREAPER


def measure(words, script, text):
    """Runs a command on a script, and answers what it used.

    Linux counts what the parent held when it started a child as the child's own, and Python holds 10 MB. So a shell,
    which holds less than 1, starts the command and ends, and the command is then waited for as an orphan."""
    shell = ["sh", "-c", 'script=$1 text=$2; shift 2; "$@" <"$script" >"$text" &', "sh", script, text, *words]
    began = time.monotonic()
    os.waitpid(os.posix_spawnp("sh", shell, os.environ), 0)
    ended = os.waitid(os.P_ALL, 0, os.WEXITED | os.WNOWAIT)
    clock = time.monotonic() - began
    with open(f"/proc/{ended.si_pid}/io") as counts:
        written = next(int(line.split()[1]) for line in counts if line.startswith("wchar"))
    _, status, used = os.wait4(ended.si_pid, 0)
    if status != 0:
        sys.exit(f"{' '.join(words)} ended with status {os.waitstatus_to_exitcode(status)}")
    return Used(used.ru_utime + used.ru_stime, clock, used.ru_maxrss / 1024, written)
