"""The router: each gate and random circuits get a yes, planted mistakes are found, and hostile circuits end in time."""

import contextlib
import io
import multiprocessing
import os
import random
import re
import resource
import signal
import subprocess
import sys
import time
from dataclasses import replace
from unittest import mock

import support
from bbmlab_core.cli import main
from bbmlab_core.host.signals import StoppedBySignal
from bbmlab_core.physics.simulation import WholeRun, key_of
from bbmlab_core.route import certificate, search, world
from bbmlab_core.route.attempt import Attempt
from bbmlab_core.route.design import used_tile_bounds
from bbmlab_core.route.netlist import RouterNetlist
from bbmlab_core.route.settings import RouterSettings
from bbmlab_core.route.world import Footprint
from bbmlab_core.texts.circuits import evaluate_all
from bbmlab_core.texts.documents import Document, read_document

sys.path.insert(0, str(support.TOP / "bench"))
from random_circuits import KINDS, made_circuit  # noqa: E402

LINES = {
    "source": "source 1 -> x\nsource 0 -> y", "fredkin": "fredkin a b c -> x y z", "cswap": "cswap a b c -> x y z",
    "interact": "interact a b -> w x y z", "switch": "switch a b -> x y z", "delay": "delay 37 a -> x",
    "unswitch": "switch a b -> p q r\nunswitch p q r -> x y",
    "uninteract": "interact a b -> p q r s\nuninteract p q r s -> x y",
}
# The seconds in which an interrupted search has to end, on a busy machine too. Without an interrupt it takes longer.
INTERRUPT_SECONDS = 25.0


def circuit_text(inputs: str, lines: str, outputs: str, spills: str = "") -> str:
    """Writes a circuit section; names are letters."""
    parts = [*(f"input {name}" for name in inputs), *lines.splitlines(), *(f"output {name}" for name in outputs)]
    return "\n".join(["circuit", *parts, *(f"spill {name}" for name in spills), "end"]) + "\n"


def gate_circuit(word: str) -> str:
    """Writes a circuit of one gate, for an inverse gate with the gate that it reverses."""
    lines = LINES[word]
    made = [name for line in lines.splitlines() for name in line.split("-> ")[1].split()]
    used = [name for line in lines.splitlines() for name in line.split(" ->")[0].split()[1:] if name.isalpha()]
    return circuit_text("".join(name for name in "abc" if name in used), lines,
                        "".join(name for name in made if name not in used))


class Routing(support.InRoom):
    """A case with a folder and the command."""

    def setUp(self) -> None:
        """Makes the folder, and finds the program."""
        super().setUp()
        self.program = support.program()

    def route(self, text: str, *words: str) -> tuple[int, str, str]:
        """Runs the command in this process: its status, the bundle, and what it said."""
        circuit, bundle, said = self.room / "circuit.txt", self.room / "bundle.txt", io.StringIO()
        circuit.write_text(text)
        bundle.unlink(missing_ok=True)
        with contextlib.redirect_stderr(said):
            status = main(["route", str(circuit), "-o", str(bundle), "--program", self.program, *words])
        made = bundle.read_text() if bundle.exists() else ""
        support.require_limits_of(made, self.program)
        return status, made, said.getvalue()

    def verdict(self, bundle: str) -> str:
        """Returns what the program says about a bundle."""
        ended = subprocess.run([self.program, "check"], input=bundle.encode(), capture_output=True, check=False)
        return ended.stdout.decode()

    def assert_yes(self, text: str, *words: str) -> Document:
        """Asserts that a circuit is routed with a yes, keeps its text, and that the lab's simulation gives its values.
        """
        status, bundle, said = self.route(text, *words)
        self.assertEqual(status, 0, said)
        self.assertIn("verdict yes", said)
        self.assertIn("\nverdict yes\n", self.verdict(bundle))
        self.assertTrue(bundle.removeprefix("limits 2\n").startswith(text))
        document = read_document(bundle)
        self.assertIsNone(document.refusal)
        self.assert_same_values(document)
        return document

    def assert_same_values(self, document: Document) -> None:
        """Asserts that under all inputs the layout's run ends with the circuit's values in its `out` cells."""
        circuit, layout = document.circuit, document.layout
        assert circuit and layout
        values = evaluate_all(circuit)
        run = WholeRun(layout, values.tables, values.full)
        self.assertTrue(run.run_to(layout.steps))
        wastes = {key_of(part.cell) for part in layout.of_kind("waste")}
        expected = {key_of(cell): values.full for cell in layout.mirror_cells()}
        expected.update((key_of(part.cell), values.tables[part.name or ""]) for part in layout.of_kind("out"))
        found = {key: table for key, table in run.field.live.items() if key not in wastes}
        self.assertEqual(found, {key: table for key, table in expected.items() if table})


class Yes(Routing):
    """What can be routed gets a yes."""

    def test_each_gate_alone(self) -> None:
        """Each of the eight kinds of gate."""
        for word in LINES:
            with self.subTest(word):
                self.assert_yes(gate_circuit(word))

    def test_random_circuits(self) -> None:
        """30 random circuits of all kinds, with a new seed each time."""
        seed = int(os.environ.get("ROUTE_SEED") or random.randrange(10**6))
        print(f"test_random_circuits: ROUTE_SEED={seed}", file=sys.stderr)
        chance = random.Random(seed)
        for index in range(30):
            kind = sorted(KINDS)[index % len(KINDS)]
            text = made_circuit(kind, chance.randint(1, 4), chance.randint(4, 5), chance.randrange(10**6))
            with self.subTest(kind=kind, index=index, seed=seed):
                self.assert_yes(text, "--seed", str(chance.randint(1, 10**6)))

    def test_fredkin_lies_in_one_module(self) -> None:
        """A Fredkin gate lies in one module of at most 64 by 64 cells, which uses it."""
        document = self.assert_yes(gate_circuit("fredkin"))
        assert document.certificate
        large = [module for module in document.certificate.modules if module.box.width > 16]
        self.assertEqual([list(module.uses) for module in large], [[0]])
        self.assertLessEqual(max(large[0].box.width, large[0].box.height), 64)

    def test_same_seed_same_bytes(self) -> None:
        """The same seed gives the same bytes, also with two processes. Another seed gives another layout."""
        text = made_circuit("inverse", 6, 4, 7)
        first = self.route(text, "--seed", "5")[1]
        self.assertTrue(first)
        self.assertEqual(first, self.route(text, "--seed", "5")[1])
        self.assertEqual(first, self.route(text, "--seed", "5", "--jobs", "2")[1])
        self.assertNotEqual(first, self.route(text, "--seed", "6")[1])

    def test_no_certificate(self) -> None:
        """`--no-certificate` writes the circuit and the layout of the same bundle."""
        text = gate_circuit("switch")
        whole, part = self.route(text)[1], self.route(text, "--no-certificate")[1]
        self.assertEqual(whole.split("certificate")[0], part)

    def test_compact(self) -> None:
        """`--compact` gives a layout of at most 0.4 of the area, with a yes, and the same one by two processes."""
        text, compact = made_circuit("any", 5, 5, 303), ("--compact", "--effort", "600")
        plain = self.assert_yes(text).layout
        small = self.assert_yes(text, *compact).layout
        assert plain and small
        self.assertLessEqual(small.width * small.height, 0.4 * plain.width * plain.height)
        self.assertEqual(*(self.route(gate_circuit("switch"), *compact, *words)[1] for words in ((), ("--jobs", "2"))))

    def test_planes_of_compact(self) -> None:
        """The planes of `--compact` are smaller than the last layout, and nearly squares. None is too small."""
        circuit, chance = read_document(gate_circuit("switch"), "circuit").circuit, random.Random(1)
        assert circuit
        options = search.SearchOptions()
        routed = search.RouterSearch(circuit, gate_circuit("switch"), options, RouterSettings(),
                                     lambda *_: None).run().routed
        assert routed
        for _ in range(30):
            last = replace(routed, width=16 * chance.randint(3, 30), height=16 * chance.randint(3, 30))
            plans = list(search.compact_plans(RouterNetlist(circuit), options, RouterSettings(), last, 7))
            self.assertEqual(len({plan.seed for plan in plans}), len(plans))
            for plan in plans:
                height = plan.height or 0
                self.assertLessEqual(plan.side * height, 0.9 * last.width * last.height)
                self.assertLessEqual(48, height)
                self.assertLessEqual(height, plan.side)
                self.assertEqual(plan.side, plan.most_side)
        plans = list(search.compact_plans(RouterNetlist(circuit), options, RouterSettings(), routed, 7))
        self.assertEqual(len(plans), len(search.COMPACT_AREA_SHARES))

    def test_attempts_on_a_rectangle(self) -> None:
        """A layout of a plane that is no square lies on it."""
        circuit = read_document(gate_circuit("fredkin"), "circuit").circuit
        assert circuit
        design = Attempt(RouterNetlist(circuit), 256, 1, RouterSettings(), height=128).run()
        self.assertEqual((design.width, design.height), (256, 128))
        left, top, right, bottom = used_tile_bounds(design)
        self.assertTrue(0 <= left and 0 <= top and right <= 16 and bottom <= 8)


class Mistakes(Routing):
    """A router with a mistake does not get a yes, and the command says so."""

    def assert_found(self, text: str) -> None:
        """Asserts that the command ends with 1 and says that something is wrong with the router."""
        status, _, said = self.route(text, "--effort", "60")
        self.assertEqual(status, 1, said)
        self.assertIn("error of the router", said)

    def test_swapped_outputs(self) -> None:
        """Two outputs are swapped in the layout."""
        right = certificate.BundleMaker.make_end_lines

        def wrong(self: certificate.BundleMaker) -> list[str]:
            names = {" y ": " z ", " z ": " y "}
            return [re.sub(" [yz] ", lambda found: names[found[0]], line) for line in right(self)]

        with mock.patch.object(certificate.BundleMaker, "make_end_lines", wrong):
            self.assert_found(gate_circuit("switch"))

    def test_wrong_wire_of_an_edge_line(self) -> None:
        """The first edge line of an input names another input."""
        right = certificate.BundleMaker.add_edge_if_on_ring
        others = {"a": "b", "b": "c", "c": "a"}
        done: list[int] = []

        def wrong(self: certificate.BundleMaker, at: int, cell: tuple[int, int], wire: str | None) -> None:
            count = sum(len(module.edges) for module in self.modules)
            right(self, at, cell, wire if done or wire is None else others.get(wire, wire))
            if wire in others and sum(len(module.edges) for module in self.modules) > count:
                done.append(at)

        with mock.patch.object(certificate.BundleMaker, "add_edge_if_on_ring", wrong):
            self.assert_found(gate_circuit("fredkin"))
        self.assertTrue(done)

    def test_too_few_claims(self) -> None:
        """Paths claim no blocks and touch no cells, so that balls meet outside gates."""
        right = world.path_footprint

        def wrong(*words: object) -> Footprint | None:
            item = right(*words)  # type: ignore[arg-type]
            return Footprint(item.mirrors) if item else None

        with contextlib.ExitStack() as stack:
            for module in ("world", "paths", "board", "placement"):
                stack.enter_context(mock.patch(f"bbmlab_core.route.{module}.path_footprint", wrong))
            self.assert_found(made_circuit("forward", 12, 8, 1))


class Hostile(Routing):
    """Circuits at the limits: a bundle with a yes, or a sentence, within the time."""

    def assert_ends(self, text: str, effort: float = 10.0) -> None:
        """Asserts that the command ends in time with a yes or a sentence, in less than 500 MB."""
        path, bundle = self.room / "hostile.txt", self.room / "bundle.txt"
        path.write_text(text)
        begun = time.monotonic()
        ended = subprocess.run([sys.executable, str(support.LAB / "bbmlab"), "route", str(path), "-o", str(bundle),
                                "--program", self.program, "--effort", str(effort)], capture_output=True, check=False)
        said = ended.stderr.decode()
        support.require_limits_of(bundle.read_text() if bundle.exists() else "", self.program)
        self.assertLess(time.monotonic() - begun, 2 * effort + 60)
        self.assertLess(resource.getrusage(resource.RUSAGE_CHILDREN).ru_maxrss, 500_000)
        self.assertIn(ended.returncode, (0, 1), said)
        self.assertIn("verdict yes" if ended.returncode == 0 else "no route", said)
        self.assertNotIn("Traceback", said)

    def test_few_wires(self) -> None:
        """No gates at all, an input that goes straight to an output, constants alone, and spilled outputs get a yes."""
        texts = [circuit_text("a", "", "a"), circuit_text("", "source 1 -> a\nsource 0 -> b", "ab"),
                 circuit_text("", "source 0 -> a", "", "a"),
                 circuit_text("ab", "switch a b -> x y z", "", "xyz"), circuit_text("ab", "", "", "ab"),
                 "circuit\nend\n", circuit_text("a", "source 0 -> b\nsource 1 -> c\nfredkin a b c -> x y z", "xyz"),
                 circuit_text("a", "source 0 -> b\ndelay 9 b -> c\nswitch a c -> x y z", "xyz"),
                 circuit_text("", "source 0 -> a\ndelay 500 a -> b", "b"),
                 circuit_text("a", "source 0 -> b\ndelay 200 b -> c\ndelay 5 a -> d\nswitch d c -> x y z", "xyz")]
        for text in texts:
            with self.subTest(text=text):
                self.assert_yes(text)

    def test_long_names(self) -> None:
        """Names of 32 bytes are kept."""
        names = [name * 32 for name in "abxyz"]
        lines = [f"input {name}" for name in names[:2]] + [f"switch {' '.join(names[:2])} -> {' '.join(names[2:])}"]
        self.assert_yes("\n".join(["circuit", *lines, *(f"output {name}" for name in names[2:]), "end"]) + "\n")

    def test_delays(self) -> None:
        """Delays in a row, on two inputs of one gate, and one of 1,000 steps get a yes; one of 4096 steps ends in time.
        """
        self.assert_yes(circuit_text("ab", "delay 9 a -> c\ndelay 30 c -> d\ndelay 5 b -> e\nswitch d e -> x y z",
                                     "xyz"))
        self.assert_yes(circuit_text("ab", "delay 1000 a -> c\nswitch c b -> x y z", "xyz"))
        self.assert_ends(circuit_text("a", "delay 4096 a -> b", "b"))

    def test_many_wires(self) -> None:
        """4096 wires that go straight on."""
        names = [f"w{index}" for index in range(4096)]
        lines = [f"input {name}" for name in names] + [f"output {name}" for name in names]
        self.assert_ends("\n".join(["circuit", *lines, "end"]) + "\n")

    def test_too_many_gates(self) -> None:
        """What does not fit gets a sentence that names a gate, and with `--keep-partial` a bundle of a part with a yes.
        """
        status, bundle, said = self.route(made_circuit("forward", 200, 12, 3), "--effort", "8", "--keep-partial")
        self.assertEqual(status, 1)
        self.assertIn("no route", said)
        self.assertIn("kept a bundle", said)
        self.assertIn("verdict yes", self.verdict(bundle))

    def test_interrupt(self) -> None:
        """An interrupt ends the search in time, with one process and with two.

        It keeps a part with a yes, or says that it keeps none.
        """
        path, bundle = self.room / "large.txt", self.room / "part.txt"
        path.write_text(made_circuit("forward", 200, 12, 3))
        for words in ((), ("--jobs", "2"), ("--keep-partial",), ("--keep-partial", "--jobs", "2")):
            bundle.unlink(missing_ok=True)
            command = [sys.executable, str(support.LAB / "bbmlab"), "route", str(path), "-o", str(bundle), "--program",
                       self.program, *words]
            # A shell starts jobs in the background with SIGINT ignored, and children inherit that.
            process = subprocess.Popen(command, stderr=subprocess.PIPE, start_new_session=True,
                                       preexec_fn=lambda: signal.signal(signal.SIGINT, signal.SIG_DFL))
            time.sleep(5)
            begun = time.monotonic()
            os.killpg(process.pid, signal.SIGINT)
            said = process.communicate(timeout=30)[1].decode()
            with self.subTest(words=words):
                self.assertLess(time.monotonic() - begun, INTERRUPT_SECONDS)
                support.require_limits_of(bundle.read_text() if bundle.exists() else "", self.program)
                self.assertEqual(process.returncode, 130)
                self.assertIn("interrupted", said)
                self.assertNotIn("Traceback", said)
                self.assertEqual("no part is kept" in said or "verdict yes" in said, "--keep-partial" in words, said)
                self.assertEqual(bundle.exists(), "kept a bundle" in said, said)

    def test_interrupted_processes_keep_what_they_found(self) -> None:
        """An interrupt of several processes keeps the routes that were found, as that of one process does, and has its
        signal's status."""
        text = gate_circuit("switch")
        circuit = read_document(text, "circuit").circuit
        assert circuit
        found = search.RouterSearch(circuit, text, search.SearchOptions(), RouterSettings(),
                                    lambda *_: None).run().routed

        def stopped(pool: search.AttemptPool) -> None:
            """Is interrupted after a route was found."""
            assert found
            pool.found[0] = found
            raise StoppedBySignal(signal.SIGTERM)

        with mock.patch.object(search.AttemptPool, "start_next_attempt", stopped):
            outcome = search.RouterSearch(circuit, text, search.SearchOptions(jobs=2, is_compact=True),
                                          RouterSettings(), lambda *_: None).run()
        self.assertTrue(outcome.is_interrupted)
        self.assertEqual((outcome.routed, outcome.interrupt_status), (found, 143))

    def test_attempts_that_succeed_at_once(self) -> None:
        """Of two attempts whose routes come at once, the first in order counts, and the other one is ended."""
        pool = search.AttemptPool(mock.MagicMock(deadline=time.monotonic() + 60), iter(()), 0)
        pool.search.options.jobs = 0
        for index in range(2):
            here, there = multiprocessing.Pipe(duplex=False)
            there.send(("routed", 1, 64, search.RoutedBundle("", "", 64, 64, 1, 0, 1, 0, 1)))
            there.close()
            pool.workers[here] = search.AttemptWorker(mock.Mock(), index)
        self.assertEqual(pool.run(), 0)


class Delays(Routing):
    """Delays that one ball passes in turn."""

    def test_short_delays_in_turn(self) -> None:
        """A box that knows the first and the last wire of a ball uses the delays between, so that it does not run them
        as independent."""
        text = "circuit\ninput a\ndelay 1 a -> b\ndelay 1 b -> c\ndelay 1 c -> d\ndelay 1 d -> e\noutput e\nend\n"
        for seed in range(1, 41):
            status, _, said = self.route(text, "--size", "96", "--seed", str(seed))
            self.assertEqual(status, 0, f"seed {seed}: {said}")

    def test_delay_behind_constants(self) -> None:
        """A box with a gate of constants and a delay of its output uses the delay."""
        text = ("circuit\nsource 1 -> a\nsource 1 -> b\nswitch b a -> c d e\ndelay 3 d -> f\noutput f\nspill e\nspill "
                "c\nend\n")
        self.assertEqual(self.route(text)[0], 0)

    def test_more_steps_than_a_layout_has(self) -> None:
        """Delays that need too many steps are refused at once."""
        lines = "\n".join(f"delay 4096 w{number} -> w{number + 1}" for number in range(257))
        status, _, said = self.route(f"circuit\ninput w0\n{lines}\noutput w257\nend\n")
        self.assertEqual(status, 1)
        self.assertIn("the delays need 1052672 steps; a layout has at most 1048576", said)


LATE = ("circuit\ninput a\ninput b\ninput c\nsource 1 -> one\nswitch c a -> d e f\nswitch b one -> g h i\n"
        "switch h d -> j k l\n" + "".join(f"output {wire}\n" for wire in "efgijkl") + "end\n")


class LateInputs(Routing):
    """Inputs that meet the other balls as late as they can."""

    def first_meeting(self, *late: str) -> tuple[int, int]:
        """Returns when the input b meets another ball, and when the gate that does not depend on it ends."""
        circuit = read_document(LATE, "circuit").circuit
        assert circuit
        design = Attempt(RouterNetlist(circuit, late=late), 256, 1, RouterSettings()).run()
        gate = next(gate for gate in design.gates if gate.number == 1)
        return next(path.end.time for path in design.paths if path.wire == "b"), gate.time + gate.cell.step_count

    def test_late_input(self) -> None:
        """A late input comes after all gates that do not depend on it; without the option it comes earlier."""
        late, end = self.first_meeting("b")
        self.assertGreaterEqual(late, end)
        self.assertLess(self.first_meeting()[0], late)

    def test_gates_of_late_inputs(self) -> None:
        """The gates that depend on a late input are known, and the balls that wait for it."""
        circuit = read_document(LATE, "circuit").circuit
        assert circuit
        netlist = RouterNetlist(circuit, late=("b",))
        self.assertEqual(netlist.late_gates, {2, 3})
        self.assertEqual([wire for wire in "abcdefghk" if netlist.is_before_late_inputs(wire)], ["a", "c", "d"])

    def test_no_input(self) -> None:
        """A late input that the circuit does not have is refused."""
        status, _, said = self.route(LATE, "--late", "b", "z")
        self.assertEqual(status, 2)
        self.assertIn("--late z: the circuit has no such input", said)


class Refusals(Routing):
    """What is no circuit, and wrong words."""

    def test_refused_circuit(self) -> None:
        """A circuit that is refused gets the line and status 1."""
        status, _, said = self.route("circuit\ninput a\nend\n")
        self.assertEqual(status, 1)
        self.assertIn("line 3 is refused with code 11", said)

    def test_wrong_size(self) -> None:
        """A size that no layout can have gets status 2."""
        self.assertEqual(self.route(gate_circuit("switch"), "--size", "100")[0], 2)

    def test_a_cell_as_wide_as_the_layout(self) -> None:
        """A gate whose cell has no room in the layout gets a sentence."""
        status, _, said = self.route(gate_circuit("fredkin"), "--size", "48", "--effort", "1")
        self.assertEqual(status, 1)
        self.assertIn("found no place: no room", said)
