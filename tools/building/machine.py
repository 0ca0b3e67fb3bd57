"""What a build may use of the machine."""
import os


def build_processors():
    """How many processors a build may use: RT_JOBS, or those that there are."""
    given = os.environ.get("RT_JOBS", "")
    if given.isdigit() and int(given) > 0:
        return int(given)
    try:
        return len(os.sched_getaffinity(0))
    except (AttributeError, OSError):
        return os.cpu_count() or 1


def free_memory():
    """The bytes of memory that are free, or None where the system doesn't say."""
    try:
        with open("/proc/meminfo", encoding="utf-8") as file:
            for line in file:
                if line.startswith("MemAvailable:"):
                    return 1024 * int(line.split()[1])
    except (OSError, ValueError, IndexError):
        pass
    return None
