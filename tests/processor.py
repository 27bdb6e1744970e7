"""The time of the processor, which tells more than the clock where other work runs."""
from __future__ import annotations

import resource


def seconds() -> float:
    """Those of all runs that have ended."""
    found = resource.getrusage(resource.RUSAGE_CHILDREN)
    return found.ru_utime + found.ru_stime
