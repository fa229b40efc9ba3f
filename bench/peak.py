"""The peak memory of a program that runs.

What the system tells of an ended child counts the memory of the parent that it was forked from, which here is more than a
small program takes. So the program is asked while it runs, every millisecond: what it takes just before its end may be missed, and
0.0 stands for one that ended before it could be asked.
"""
import os
import time


def high_water(pid):
    """The most memory that the process has held so far, in MB; 0 where it has ended."""
    try:
        with open(f"/proc/{pid}/status", encoding="ascii") as it:
            return max((int(line.split()[1]) / 1024 for line in it if line.startswith("VmHWM:")), default=0.0)
    except OSError:
        return 0.0


def ended(pid):
    """Waits for a child: its status, the processor seconds that it used, and its peak memory in MB."""
    peak = 0.0
    while os.waitid(os.P_PID, pid, os.WEXITED | os.WNOHANG | os.WNOWAIT) is None:
        peak = max(peak, high_water(pid))
        time.sleep(0.001)
    _, status, used = os.wait4(pid, 0)
    return status, used.ru_utime + used.ru_stime, peak
