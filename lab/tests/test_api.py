"""The package `bbmlab` and its page, docs/API.md."""

import dataclasses
import doctest
import inspect
import os
import pickle
import re
import subprocess
import sys
import unittest
from pathlib import Path

import support

PAGE = support.TOP / "docs" / "API.md"
sys.path.insert(0, str(support.LAB / "public"))
import bbmlab  # noqa: E402

MAX_WORDS = 1000
LEAST_LINES = 30
# Longer worked texts are not read here, for time.
MAX_BYTES = 50_000
# The fields of records and the arguments of calls are on the page too.
RECORDS = ["Border", "Box", "Bundle", "Certificate", "Circuit", "Comparison", "Explanation", "Gate", "Layout", "Module",
           "Netlist", "Port", "Report", "Row", "State", "Stop"]
CALLS = ["certify", "check", "clean", "equivalent", "explain", "inverse", "local_run", "read", "read_netlist", "route",
         "simplify", "simulate", "stats", "table", "to_conservative"]


def fields_of(record: type) -> list[str]:
    """Returns the public fields of a record in their order: a field that is not compared says where a line is."""
    fields = ([field.name for field in dataclasses.fields(record) if field.compare]
              if dataclasses.is_dataclass(record) else list(record._fields))  # type: ignore[attr-defined]
    return [name for name in fields if not name.startswith("_")]


class Page(unittest.TestCase):
    """What docs/API.md says."""

    def setUp(self) -> None:
        """Reads the page."""
        self.page = PAGE.read_text(encoding="utf-8")

    def test_example(self) -> None:
        """The example of the page runs as it is shown, and the page is short."""
        support.program()
        example = self.page.split("```\n")[1]
        self.assertGreaterEqual(len(example.splitlines()), LEAST_LINES)
        test = doctest.DocTestParser().get_doctest(example, {}, "API.md", str(PAGE), 0)
        told: list[str] = []
        result = doctest.DocTestRunner(verbose=False).run(test, out=told.append)
        self.assertEqual(result.failed, 0, "".join(told))
        self.assertLessEqual(len(self.page.split()), MAX_WORDS)

    def test_names(self) -> None:
        """The page names each public name, and no name of the package that is not public."""
        used = set(re.findall(r"\bbbmlab\.(\w+)", self.page)) - {"py"}
        first = {re.split(r"[^\w]", piece)[0] for piece in re.findall(r"`([^`\n]+)`", self.page)}
        self.assertEqual(set(bbmlab.__all__) - first, set())
        self.assertEqual(used - set(bbmlab.__all__), set())
        self.assertEqual(sorted(bbmlab.__all__), dir(bbmlab))
        self.assertEqual([name for name in bbmlab.__all__ if getattr(bbmlab, name, None) is None], [])

    def test_fields_and_arguments(self) -> None:
        """The page has each record with its fields and each call with its arguments, in their order, and each builder.
        """
        shown = dict(re.findall(r"`(\w+)\(([^)`]*)\)", self.page))
        for name in RECORDS:
            with self.subTest(name):
                self.assertEqual(shown[name].split(", "), fields_of(getattr(bbmlab, name)))
        for name in CALLS:
            with self.subTest(name):
                self.assertEqual(shown[name].split(", "), list(inspect.signature(getattr(bbmlab, name)).parameters))
        self.assertTrue(all(f"`{name}`" in self.page for name in fields_of(bbmlab.Finding)[3:]))
        for record in (bbmlab.Circuit, bbmlab.Layout, bbmlab.Certificate, bbmlab.Module):
            for name, builder in vars(record).items():
                # A builder returns a record of the same type.
                if (inspect.isfunction(builder) and name not in ("clipped", "with_parts")
                        and inspect.signature(builder).return_annotation == record.__name__):
                    parameters = list(inspect.signature(builder).parameters.values())[1:]
                    self.assertEqual(shown.get(name), ", ".join(str(part).split(":")[0] for part in parameters), name)


class Import(unittest.TestCase):
    """`import bbmlab`, texts, the values of their sections, `simulate` and `local_run`."""

    def test_is_cheap(self) -> None:
        """The import loads no module but the package itself."""
        code = "import sys; before = set(sys.modules); import bbmlab; print(*(set(sys.modules) - before))"
        ran = subprocess.run([sys.executable, "-B", "-c", code], capture_output=True, text=True, check=True,
                             env={**os.environ, "PYTHONPATH": f"{support.LAB}:{support.LAB / 'public'}"})
        self.assertEqual(set(ran.stdout.split()), {"bbmlab", "bbmlab_core", "__future__"})

    def test_unknown_name(self) -> None:
        """A name that is not public is not there."""
        self.assertFalse(hasattr(bbmlab, "find_and_open_program"))

    def test_round_trips(self) -> None:
        """Each worked text that is taken is read and written byte for byte, and read again as the same value."""
        count = 0
        for case in support.worked_cases():
            if len(case.input) > MAX_BYTES or case.status == 3:
                continue
            text = case.input.decode("latin-1")
            with self.subTest(case.name):
                bundle = bbmlab.read(text)
                self.assertEqual(str(bundle), text)
                self.assertEqual(bbmlab.read(str(bundle)), bundle)
                self.assertEqual(hash(bundle), hash(pickle.loads(pickle.dumps(bundle))))
                count += 1
        self.assertGreater(count, 100)

    def test_builders(self) -> None:
        """Sections that builders make, in any order of lines, are those of the text."""
        text = support.text_of("four_modules")
        read = bbmlab.read(text)
        assert read.circuit and read.layout and read.certificate
        circuit = bbmlab.Circuit().input(*read.circuit.inputs)
        for gate in read.circuit.gates:
            circuit = circuit.gate(str(gate))
        self.assertEqual(circuit.output(*read.circuit.outputs).spill(*read.circuit.spills), read.circuit)
        layout = bbmlab.Layout(read.layout.width, read.layout.height, read.layout.steps)
        for kind, parts in (("mirror", "mirrors"), ("in_cell", "ins"), ("out_cell", "outs"), ("ball", "balls"),
                            ("waste", "wastes")):
            for part in getattr(read.layout, parts):
                layout = getattr(layout, kind)(*part)
        self.assertEqual(layout, read.layout)
        certificate = bbmlab.Certificate(read.certificate.version)
        for module in read.certificate.modules:
            again = bbmlab.Module(module.box).cut(*module.cuts).use(*reversed(module.uses)).keep(
                *reversed(module.keeps))
            for kind in ("edge", "halo", "stop"):
                for line in reversed(getattr(module, f"{kind}s")):
                    again = getattr(again, kind)(*line)
            certificate = certificate.module(again)
        self.assertEqual(certificate, read.certificate)

    def test_wrong_gate_line(self) -> None:
        """A line that is no gate's is refused by the builder."""
        for line in ("fredkin a b -> c", "input a", "delay x a -> b", "", "switch c x -> d y z\noutput d"):
            with self.subTest(line), self.assertRaises(ValueError):
                bbmlab.Circuit().gate(line)

    def test_frozen(self) -> None:
        """No field can be set."""
        with self.assertRaises(dataclasses.FrozenInstanceError):
            bbmlab.Circuit().inputs = ("p",)  # type: ignore[misc]

    def test_last_state_is_the_programs(self) -> None:
        """The last state is what `run` prints, or it is outside at the step that `run` names."""
        count = 0
        for case in support.worked_runs():
            bundle = bbmlab.read(case.input.decode("latin-1"))
            assert bundle.layout and bundle.on is not None
            *_, last = bbmlab.simulate(bundle.layout, bundle.on)
            told = support.run_words(support.sorted_cells(last.cells), None if last.is_inside else last.time)
            with self.subTest(case.name):
                self.assertEqual(told, case.output.decode())
            count += 1
        self.assertGreater(count, 20)

    def test_local_run(self) -> None:
        """A module's run shows the fault of the report at its time and cell under its assignment."""
        support.program()
        # An `out` cell whose wire is true, a cell of the ring without an `edge` line, an `out` cell whose wire is true.
        for name, index, live in (("wrong_edge", 0, False), ("wrong_edge", 1, True), ("wrong_border", 0, False)):
            bundle = bbmlab.read(support.text_of(name))
            finding = bbmlab.check(bundle).findings[index]
            states = list(bbmlab.local_run(bundle, finding.module or 0, finding.assignment or 0))
            self.assertEqual([state.time for state in states], list(range(bundle.layout.steps + 1)))
            with self.subTest(name):
                self.assertEqual((finding.x, finding.y) in states[finding.time or 0].cells, live)

    def test_wrong_arguments(self) -> None:
        """A wrong name, step count, module or assignment is a ValueError, at the call."""
        bundle = bbmlab.read(support.text_of("one_wire"))
        assert bundle.layout
        layout = bundle.layout
        for call in (lambda: bbmlab.simulate(layout, {"q"}), lambda: bbmlab.simulate(layout, steps=-1),
                     lambda: bbmlab.local_run(bundle, 1),
                     lambda: bbmlab.local_run(bundle, -1), lambda: bbmlab.local_run(bundle, 0, 2),
                     lambda: bbmlab.local_run(bundle, 0, -1)):
            with self.assertRaises(ValueError):
                call()
        outside = bbmlab.read(support.text_of("outside_domain"))
        with self.assertRaises(ValueError):
            for assignment in range(1 << 12):
                bbmlab.local_run(outside, 0, assignment)


class Program(support.InRoom):
    """`check`, `explain`, `certify` and `route`."""

    def test_report(self) -> None:
        """The report is the program's, with each line of it as an object."""
        for name, verdict, status in (("fredkin_gate", "yes", 0), ("wrong_times", "no", 1), ("wrong_border", "no", 1),
                                      ("not_kept", "no", 1)):
            text = support.text_of(name)
            printed, report = support.checked(text), bbmlab.check(text)
            with self.subTest(name):
                self.assertEqual((report.verdict, report.status, report.is_yes), (verdict, status, verdict == "yes"))
                self.assertEqual((report.text, str(report)), (printed, printed))
                self.assertEqual([str(finding) for finding in report.findings], printed.splitlines()[4:])
                self.assertEqual(any(finding.is_against for finding in report.findings), verdict == "no")

    def test_refusals(self) -> None:
        """Each way to hand in a refused text raises RefusedError with the program's line and code."""
        text = support.text_of("not_local")
        program = support.checked(text).split()
        for call in (bbmlab.read, bbmlab.check):
            with self.assertRaises(bbmlab.RefusedError) as raised:
                call(text)
            self.assertEqual(["refused", str(raised.exception.line), str(raised.exception.code)], program)
            self.assertTrue(raised.exception.reason)
            again = pickle.loads(pickle.dumps(raised.exception))
            self.assertEqual((again.line, again.code, str(again)),
                             (raised.exception.line, raised.exception.code, str(raised.exception)))
        for call in (bbmlab.read, bbmlab.check, bbmlab.explain):
            with self.assertRaises(TypeError):
                call(text.encode())  # type: ignore[arg-type]
        for strange in ("", "\u2192\n", "circuit\ninput \udc80\n"):
            for call in (bbmlab.read, bbmlab.check):
                with self.subTest(strange), self.assertRaises(bbmlab.RefusedError):
                    call(strange)

    def test_missing_program(self) -> None:
        """A program that is not there, or gives no report, is a ProgramError; one that takes too long a TimeoutError.
        """
        text = support.text_of("one_wire")
        fakes = {"silent": "exit 0",
                 "liar": "printf 'bbmcheck 1\\ncertificate %064d\\nmodules 1\\nverdict yes\\n' 0; exit 1",
                 "full": "echo 'bbmcheck: out of memory' >&2; exit 5", "slow": "exec sleep 20"}
        for name, script in fakes.items():
            path = self.room / name
            path.write_text(f"#!/bin/sh\n{script}\n")
            path.chmod(0o755)
            with self.subTest(name), self.assertRaises(TimeoutError if name == "slow" else bbmlab.ProgramError):
                bbmlab.check(text, program=str(path), timeout=0.5 if name == "slow" else None)
            if name != "slow":
                with self.subTest(f"explain, {name}"), self.assertRaises(bbmlab.ProgramError):
                    bbmlab.explain(text, program=str(path))
        with self.assertRaises(bbmlab.ProgramError):
            bbmlab.check(text, program=f"{self.room}/none")
        self.assertTrue(issubclass(bbmlab.ProgramError, OSError))
        with self.assertRaises(OSError):
            bbmlab.check("x" * 16_777_217)

    def test_explain(self) -> None:
        """The explanation is what the command prints, without colours, and its fix gets a yes."""
        support.program()
        path = support.example("wrong_edge")
        explanation = bbmlab.explain(Path(path).read_text())
        self.assertEqual(str(explanation) + "\n", support.lab("explain", path).stdout)
        self.assertEqual((explanation.verdict, explanation.document["format"]), ("no", "bbmlab explanation 2"))
        self.assertNotIn("fixed", explanation.document)
        assert explanation.fixed
        self.assertTrue(bbmlab.check(explanation.fixed).is_yes)
        self.assertEqual(bbmlab.explain(support.text_of("not_local")).verdict, "refused")

    def test_certify(self) -> None:
        """A circuit and a layout get a certificate with a yes, by boxes of the lab, a grid, and given boxes."""
        support.program()
        bundle = bbmlab.read(support.text_of("fredkin_gate"))
        bare = bbmlab.Bundle(bundle.circuit, bundle.layout)
        for made in (bbmlab.certify(bare), bbmlab.certify(bundle), bbmlab.certify(bare, grid=(64, 64), cuts="safe"),
                     bbmlab.certify(bare, boxes=[module.box for module in bundle.certificate.modules], version=1)):
            self.assertTrue(bbmlab.check(made).is_yes)
        for wrong in ({"grid": (3, 3)}, {"boxes": [(0, 0, 3, 3)]}, {"boxes": [(0, 0, 4, 4)]}, {"cuts": "few"},
                      {"version": 3}):
            with self.subTest(wrong), self.assertRaises(ValueError) as raised:
                bbmlab.certify(bare, **wrong)  # type: ignore[arg-type]
            self.assertNotIsInstance(raised.exception, bbmlab.RefusedError)
        with self.assertRaises(ValueError):
            bbmlab.certify(bbmlab.Bundle(bundle.circuit))
        leaves = bbmlab.Layout(8, 8, 9).in_cell("p", 2, 2).out_cell("p", 7, 7)
        with self.assertRaises(bbmlab.NotFoundError):
            bbmlab.certify(bbmlab.Bundle(bbmlab.Circuit().input("p").output("p"), leaves))

    def test_route(self) -> None:
        """A circuit gets a layout and a certificate with a yes, the same for the same seed."""
        support.program()
        circuit = bbmlab.read(support.text_of("half_adder")).circuit
        assert circuit
        bundle = bbmlab.route(circuit)
        self.assertEqual(bundle.circuit, circuit)
        self.assertTrue(bbmlab.check(bundle).is_yes)
        self.assertEqual(bbmlab.route(circuit), bundle)
        for wrong in ({"size": 50}, {"seed": 0}, {"jobs": 0}, {"effort": 0.0}):
            with self.assertRaises(ValueError):
                bbmlab.route(circuit, **wrong)  # type: ignore[arg-type]
        with self.assertRaises(bbmlab.NotFoundError):
            bbmlab.route(circuit, size=48, effort=0.1)
