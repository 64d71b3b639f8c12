"""Parts of a set of files for several machines: each file is in one part, by the digest of its name."""

import argparse
import hashlib
import os
from typing import NamedTuple


class Shard(NamedTuple):
    """Part `number` of `part_count` parts, from 1."""

    number: int
    part_count: int


def shard_from_text(word: str) -> Shard:
    """Returns a part, written K/N."""
    number, slash, count = word.partition("/")
    if not slash or not (number.isdecimal() and count.isdecimal()) or max(len(number),
                                                                          len(count)) > 6 or not 1 <= int(
                                                                              number) <= int(count):
        raise argparse.ArgumentTypeError("it is K/N, such as 3/16, with K from 1 to N")
    return Shard(int(number), int(count))


def is_in_shard(file: str, part: Shard | None) -> bool:
    """Whether a file is in a part: the digest of its name as it was given, modulo the number of parts.

    Without a part all are.
    """
    if part is None:
        return True
    return int.from_bytes(hashlib.sha256(os.fsencode(file)).digest()[:8], "big") % part.part_count == part.number - 1
