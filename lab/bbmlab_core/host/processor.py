"""The time that the processor has worked for this process: limits by it do not depend on what else the machine does."""

import os


def processor_seconds() -> float:
    """Returns the seconds of the processor that this process and its ended children took so far."""
    return sum(os.times()[:4])
