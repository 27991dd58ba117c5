"""How long the way is that lies behind each crate, in seconds as they were measured."""
import os

TOOLS = os.path.dirname(os.path.dirname(os.path.realpath(__file__)))


def seconds_measured():
    """Returns by the crate's name the seconds of processor time that its check took when it was measured."""
    with open(f"{TOOLS}/crate_seconds", encoding="utf-8") as file:
        lines = [line.split() for line in file if not line.startswith("#")]
    return {name: int(seconds) for name, seconds in lines}


def ways(crates, seconds):
    """Returns for each crate, those below first, the seconds of the longest way from its begin to the end of all. One
    that wasn't measured counts as what they take in the mean."""
    mean, behind = sum(seconds.values()) / max(len(seconds), 1), {}
    for it in reversed(crates):
        above = [behind[other] for other in crates if it in other.deps]
        behind[it] = seconds.get(it.name, mean) + max(above, default=0)
    return behind
