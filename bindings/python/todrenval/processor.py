"""What the library needs of a processor: the features of x86-64-v2."""

from __future__ import annotations

import platform
from typing import List

# As Linux names them. SSE3 is pni there.
FEATURES = ("cx16", "lahf_lm", "pni", "popcnt", "sse4_1", "sse4_2", "ssse3")


def lacking(cpuinfo: str = "/proc/cpuinfo") -> List[str]:
    """Returns the features that the processor doesn't have, or none if nothing tells which it has.

    >>> lacking("/dev/null")
    []
    """
    try:
        with open(cpuinfo, encoding="ascii", errors="replace") as lines:
            for line in lines:
                name, _, flags = line.partition(":")
                if name.strip() == "flags":
                    return sorted(set(FEATURES) - set(flags.split()))
    except OSError:
        pass
    return []


def refuse_older(cpuinfo: str = "/proc/cpuinfo") -> None:
    """Raises ImportError on a processor on which the library would die of an illegal instruction."""
    if platform.machine() not in ("x86_64", "AMD64"):
        raise ImportError(f"The library of todrenval is for x86-64, and this machine is {platform.machine()}.")
    lacks = lacking(cpuinfo)
    if lacks:
        raise ImportError(f"The library of todrenval needs x86-64-v2, and this processor lacks {', '.join(lacks)}.")
