"""Faulty texts that are made of right ones by one edit each: what `explain --fix` is measured on."""

import random
from typing import Callable, Iterator

Lines = list[str]
Mutation = Callable[[Lines, random.Random], Lines | None]
BORDER = ("edge", "halo")


def numbered(lines: Lines, *words: str) -> list[int]:
    """Returns the indices of the lines that begin with one of some words."""
    return [index for index, line in enumerate(lines) if line.split(" ")[0] in words]


def with_line(lines: Lines, index: int, new: list[str] | None) -> Lines:
    """Returns the lines with another one at an index, or without it."""
    return lines[:index] + ([" ".join(new)] if new else []) + lines[index + 1:]


def drop(lines: Lines, chance: random.Random) -> Lines | None:
    """Leaves out a line of the certificate, a mirror or a ball."""
    places = numbered(lines, "cut", "use", "keep", "edge", "halo", "stop", "mirror", "ball")
    return with_line(lines, chance.choice(places), None) if places else None


def rename(lines: Lines, chance: random.Random) -> Lines | None:
    """Writes another wire of the circuit in an `edge`, `halo` or `stop` line."""
    places = [index for index in numbered(lines, "edge", "halo", "stop") if not lines[index].endswith(" 1")]
    wires = sorted({name for line in lines[:lines.index("end")] for name in line.split(" ")[1:] if name[0].isalpha()})
    if not places:
        return None
    index = chance.choice(places)
    words = lines[index].split(" ")
    place = 2 if words[0] == "stop" else 4
    words[place] = chance.choice([wire for wire in wires if wire != words[place]] or wires)
    return with_line(lines, index, words)


def late(lines: Lines, chance: random.Random) -> Lines | None:
    """Moves an `edge`, `halo` or `stop` line by some steps in time, or the end of the run."""
    places = [index for index in numbered(lines, "edge", "halo", "stop")
              if lines[index].split(" ")[1] != "*"] + numbered(lines, "layout")
    index = chance.choice(places)
    words = lines[index].split(" ")
    place, step = (3, chance.choice((1, 2, 3, -1))) if words[0] == "layout" else (1, chance.choice((2, -2)))
    if int(words[place]) + step < 0:
        return None
    words[place] = str(int(words[place]) + step)
    return with_line(lines, index, words)


def swap(lines: Lines, chance: random.Random) -> Lines | None:
    """Exchanges the names of two `out` lines."""
    places = numbered(lines, "out")
    if len(places) < 2:
        return None
    one, two = chance.sample(places, 2)
    first, second = lines[one].split(" "), lines[two].split(" ")
    first[1], second[1] = second[1], first[1]
    return with_line(with_line(lines, one, first), two, second)


def waste(lines: Lines, chance: random.Random) -> Lines | None:
    """Leaves out a `waste` line."""
    places = numbered(lines, "waste")
    return with_line(lines, chance.choice(places), None) if places else None


def phantom(lines: Lines, chance: random.Random) -> Lines | None:
    """Adds a line that nothing asks for: an `edge` line like another one some steps later or one cell on, or a ball."""
    places = [index for index in numbered(lines, "edge") if lines[index].split(" ")[1] != "*"]
    balls = numbered(lines, "in", "ball")
    if places and chance.random() < 0.7:
        index = chance.choice(places)
        words = lines[index].split(" ")
        words[1] = str(int(words[1]) + 2)
        return lines[:index + 1] + [" ".join(words)] + lines[index + 1:]
    if not balls:
        return None
    index = chance.choice(balls)
    x, y = (int(word) for word in lines[index].split(" ")[-2:])
    new = f"ball {x + chance.randint(-3, 3)} {y + chance.randint(-3, 3)}"
    first = numbered(lines, "in")[0] if numbered(lines, "in") else index
    return lines[:first] + [new] + lines[first:]


def mirror_parity(lines: Lines, chance: random.Random) -> Lines | None:
    """Moves a mirror by one cell."""
    places = numbered(lines, "mirror")
    return moved(lines, chance.choice(places), 1, chance.choice(((1, 0), (-1, 0), (0, 1), (0, -1)))) if places else None


def moved_port(lines: Lines, chance: random.Random) -> Lines | None:
    """Moves an `in` or an `out` by one or two cells in each direction."""
    places = numbered(lines, "in", "out")
    step = chance.choice([(dx, dy) for dx in range(-2, 3) for dy in range(-2, 3) if dx or dy])
    return moved(lines, chance.choice(places), 2, step) if places else None


def moved(lines: Lines, index: int, place: int, step: tuple[int, int]) -> Lines | None:
    """Returns the lines with the cell of one of them moved."""
    words = lines[index].split(" ")
    x, y = int(words[place]) + step[0], int(words[place + 1]) + step[1]
    words[place:place + 2] = [str(x), str(y)]
    return with_line(lines, index, words) if min(x, y) >= 0 else None


FAMILIES: dict[str, Mutation] = {"drop": drop, "rename": rename, "late": late, "swap": swap, "waste": waste,
                                 "phantom": phantom, "mirror parity": mirror_parity, "moved port": moved_port}


def mutants(family: str, texts: dict[str, str], count: int, seed: int,
            is_yes: Callable[[str], bool]) -> Iterator[tuple[str, str]]:
    """Yields `count` faulty texts of a family with the names of the texts that they come from; those that get a yes are
    left out."""
    chance, found = random.Random(f"{family} {seed}"), 0
    names = sorted(texts)
    seen: set[str] = set(texts.values())
    for _ in range(40 * count):
        name = chance.choice(names)
        lines = FAMILIES[family](texts[name].split("\n"), chance)
        text = "\n".join(lines) if lines else ""
        if not text or text in seen:
            continue
        seen.add(text)
        if is_yes(text):
            continue
        found += 1
        yield name, text
        if found == count:
            return
