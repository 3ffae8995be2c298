"""What processes take that benchmarks run."""
import os
import resource


def ended(process):
    """Waits for the end of a process: the processor's seconds, and the most memory that it had, in
    bytes. A process counts the most memory of the one that began it as its own."""
    _, status, usage = os.wait4(process.pid, 0)
    process.returncode = os.waitstatus_to_exitcode(status)
    return usage.ru_utime + usage.ru_stime, usage.ru_maxrss * 1024


def own_memory():
    """The most memory that this process had, in bytes: a child that had less says so much too."""
    return resource.getrusage(resource.RUSAGE_SELF).ru_maxrss * 1024
