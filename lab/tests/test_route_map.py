"""The map of how crowded the plane of a search was."""

import random
import sys
import tempfile
import xml.etree.ElementTree as tree
from pathlib import Path

import support
from bbmlab_core.route.board import Board
from bbmlab_core.route.crowding import TILE_CLASS_COLOURS, tile_class_runs, crowding_of, tile_class, halved_taken_counts
from bbmlab_core.route.netlist import RouterNetlist
from bbmlab_core.route.settings import RouterSettings
from bbmlab_core.route.world import ROW_STRIDE, TILE_SIDE, Footprint, RoutingGrid
from bbmlab_core.texts.documents import read_document

sys.path.insert(0, str(support.TOP / "bench"))
from random_circuits import made_circuit  # noqa: E402

SVG = "{http://www.w3.org/2000/svg}"


def world_with(size: int, cells: list[tuple[int, int]]) -> RoutingGrid:
    """Returns a plane on which some cells are taken, some of them twice."""
    world = RoutingGrid(size)
    world.add(Footprint(frozenset(y * ROW_STRIDE + x for x, y in cells)))
    world.add(Footprint(frozenset(), ([y * ROW_STRIDE + x for x, y in cells[::2]],)))
    return world


class Counts(support.InRoom):
    """How many cells of a tile are taken, and the option `--map` of `route`."""

    def test_counts(self) -> None:
        """Each cell counts once, in its own tile: compared with a count cell by cell, after a growth too."""
        chance = random.Random(7)
        for size in (48, 512, 4096):
            cells = [(chance.randrange(size), chance.randrange(size)) for _ in range(3000)]
            wanted = [[0] * (size // TILE_SIDE) for _ in range(size // TILE_SIDE)]
            for x, y in set(cells):
                wanted[y // TILE_SIDE][x // TILE_SIDE] += 1
            found = [list(row) for row in halved_taken_counts(world_with(size, cells))]
            self.assertEqual(found, [[count // 2 for count in row] for row in wanted])

    def test_full_tile(self) -> None:
        """A full tile is in the last class, an empty one in the first, and half a full one in the middle."""
        cells = [(x, y) for x in range(TILE_SIDE)
                 for y in range(TILE_SIDE)] + [(x, y) for x in range(TILE_SIDE, 2 * TILE_SIDE)
                                               for y in range(TILE_SIDE // 2)]
        row = next(halved_taken_counts(world_with(48, cells)))
        self.assertEqual([tile_class(half) for half in row], [len(TILE_CLASS_COLOURS) - 1, 4, 0])

    def test_runs(self) -> None:
        """The runs of a row are its tiles in order."""
        chance = random.Random(11)
        row = bytes(chance.choice((0, 0, 1, 64, 128)) for _ in range(200))
        spread = [kind for kind, _, count in tile_class_runs(row) for _ in range(count)]
        self.assertEqual(spread, [tile_class(half) for half in row])
        kinds = [kind for kind, _, _ in tile_class_runs(row)]
        self.assertTrue(all(one != two for one, two in zip(kinds, kinds[1:])))

    def test_empty_board(self) -> None:
        """A board without gates is empty."""
        circuit = read_document(str(made_circuit("forward", 5, 4, 1)), "circuit").circuit
        assert circuit is not None
        crowding = crowding_of(Board(RouterNetlist(circuit), 96, RouterSettings()))
        self.assertEqual((crowding.taken_share, crowding.gates), (0, ()))

    def route(self, *words: str) -> tuple[int, str, tree.Element | None]:
        """Routes a circuit of ten gates; returns the status, what was said, and the map."""
        with tempfile.TemporaryDirectory() as room:
            circuit, picture = Path(room) / "circuit.txt", Path(room) / "map.svg"
            circuit.write_text(str(made_circuit("forward", 10, 5, 3)))
            ended = support.lab("route", str(circuit), "-o", str(Path(room) / "bundle.txt"), "--map", str(picture),
                                *words)
            return ended.returncode, ended.stderr, tree.parse(picture).getroot() if picture.exists() else None

    def test_routed(self) -> None:
        """Each gate that was placed has a frame with its name, and the title says that there is a route."""
        status, said, picture = self.route()
        names = [title.text or "" for title in picture.iter(f"{SVG}title")]
        placed = int(said.split("gates placed ")[1].split(",")[0])
        self.assertEqual((status, len(names), len(set(names))), (0, placed, placed))
        self.assertIn("routed", [text.text for text in picture.iter(f"{SVG}text")])

    def test_failure(self) -> None:
        """Without a route there is a map too, with one process or more, and it says why."""
        for jobs in ("1", "2"):
            status, said, picture = self.route("--size", "48", "--effort", "3", "--jobs", jobs)
            assert picture is not None, said
            texts = [text.text or "" for text in picture.iter(f"{SVG}text")]
            self.assertEqual((status, texts[0][:12], texts[1][:10]), (1, "48 by 48 cel", "no route: "))

    def test_own_input(self) -> None:
        """The map is not written over the circuit or the bundle."""
        circuit = self.room / "circuit.txt"
        circuit.write_text(str(made_circuit("forward", 3, 4, 1)))
        before = circuit.read_bytes()
        for words in ((str(circuit),), (f"{self.room}/out.txt", "-o", f"{self.room}/out.txt")):
            ended = support.lab("route", str(circuit), "--map", *words)
            self.assertEqual((ended.returncode, circuit.read_bytes()), (2, before), ended.stderr)
