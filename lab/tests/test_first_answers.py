"""Answers that come before a search, and answers for programs: missing rows, plain certificates, lists of some results,
and the API's search.
"""

import json
import time
from pathlib import Path

import support
from bbmlab_core.circuits.row_check import first_missing_row_words
from bbmlab_core.texts.code_names import CODE_NAMES

UNSWITCH = "circuit\ninput c\ninput y\ninput z\nunswitch c y z -> d x\noutput d\noutput x\nend\n"


class FirstAnswers(support.InRoom):
    """Circuits without values, `certify --plain`, `check --only` and `bbmlab.route`."""

    def test_route_does_not_search(self) -> None:
        """`route` names the gate, its inputs and their values at once, as the program's `value` does."""
        path = self.room / "circuit.txt"
        path.write_text(UNSWITCH)
        started = time.monotonic()
        ended = support.lab("route", "--effort", "25", str(path), BBMCHECK=support.program())
        self.assertEqual((ended.returncode, time.monotonic() - started < 20), (1, True))
        self.assertIn("gate 0 (`unswitch`, line 5) has no row for c=0 y=1 z=0, which it gets with y on", ended.stderr)
        ended = support.lab("explain", str(self.valued(path, ["y"])), BBMCHECK=support.program())
        self.assertIn("has no row for", ended.stdout)

    def valued(self, path: Path, on: list[str]) -> Path:
        """Writes a circuit with an assign section."""
        other = path.with_suffix(".value.txt")
        other.write_text(path.read_text() + "\n".join(["assign", *(f"on {name}" for name in on), "end", ""]))
        return other

    def test_rows(self) -> None:
        """The first gate without a row is named, in circuits of few inputs and of many, and none where all inputs have
        values."""
        many = "".join(f"input i{place}\n" for place in range(14))
        spills = "".join(f"spill i{place}\n" for place in range(14))
        circuits = [(UNSWITCH, "gate 0"), ("circuit\ninput a\noutput a\nend\n", None),
                    ("circuit\ninput c\ninput x\nswitch c x -> d y z\nunswitch d y z -> e w\noutput e\noutput w\nend\n",
                     None),
                    (UNSWITCH.replace("circuit\n", f"circuit\n{many}").replace("end\n", f"{spills}end\n"), "gate 0")]
        for text, wanted in circuits:
            document = support.read_document(text, "circuit")
            assert document.circuit and document.refusal is None, text
            found = first_missing_row_words(document.circuit)
            self.assertEqual(found and found[:6], wanted, text)

    def test_plain_certificate_of_a_no(self) -> None:
        """`--plain` writes the certificate also if the program says no to it, with the no."""
        out = self.room / "plain.txt"
        self.assert_ends(1, "certify", "--plain", support.example("plain_no"), "-o", str(out),
                         BBMCHECK=support.program(), err="the program does not say yes: no: local 0 end 3")
        self.assertEqual(support.lab("check", str(out), BBMCHECK=support.program()).returncode, 1)
        self.assertIn("certificate 2\nmodule 0 0 8 8\n", out.read_text())

    def test_only_some_results(self) -> None:
        """`--only` lists some results, and counts all of them. A refusal has its line, its code and the code's name."""
        files = [support.example(name) for name in ("plain_yes", "plain_no", "not_known")]
        ended = support.lab("check", "--only", "no,refused", *files, BBMCHECK=support.program())
        self.assertEqual((ended.returncode, len(ended.stdout.splitlines())), (1, 3))
        self.assertNotIn("plain_yes", ended.stdout)
        self.assertIn("3 files: 1 yes, 1 no, 1 refused", ended.stdout)
        document = json.loads(support.lab("check", "--only", "refused", "--format", "json", *files,
                                          BBMCHECK=support.program()).stdout)
        self.assertEqual((document["all_yes"], document["left_out"]), (False, {"yes": 1, "no": 1}))
        row, = document["results"]
        line, code = map(int, row["output"].split()[1:])
        self.assertEqual(row["refusal"], {"line": line, "code": code, "name": CODE_NAMES[code]})
        explained = json.loads(support.lab("explain", "--json", files[2], BBMCHECK=support.program()).stdout)
        self.assertEqual((explained["line"], explained["code"], explained["code_name"]), (line, code, CODE_NAMES[code]))
        for words in (["--only", "maybe"], ["--only", "no", "--format", "tap"]):
            self.assertEqual(support.lab("check", *words, *files, BBMCHECK=support.program()).returncode, 2)

    def test_names_of_codes(self) -> None:
        """The names are those of the program's sources."""
        source = support.TOP / "crates" / "section_text" / "src" / "code.rt"
        names = {line.split("RefusalCode::")[1].split(" ")[0]: int(line.split("=> ")[1].rstrip(","))
                 for line in source.read_text().splitlines()
                 if "RefusalCode::" in line and "=> " in line and line.split("=> ")[1].rstrip(",").isdigit()}
        self.assertEqual({number: name.lower() for name, number in names.items()},
                         {number: name.replace("_", "") for number, name in CODE_NAMES.items()})

    def test_netlists_progress_and_cancel(self) -> None:
        """A netlist is mapped and routed, progress is told, and a search can be cancelled.

        Messages name no option of the command.
        """
        import sys
        sys.path.insert(0, str(support.LAB / "public"))
        import bbmlab
        seen: list[tuple[int, int, int, int]] = []
        blif = ".model m\n.inputs a b\n.outputs y\n.names a b y\n11 1\n.end\n"
        bundle = bbmlab.route(blif, effort=60, progress=lambda *words: seen.append(words))
        self.assertEqual((bundle.circuit.inputs, bool(seen)), (("a", "b"), True))
        self.assertTrue(bbmlab.check(bundle, program=support.program()).is_yes)
        free = "# by hand\n" + support.text_of("half_adder")
        with self.assertRaisesRegex(bbmlab.NotFoundError, "the search was cancelled: "):
            bbmlab.route(free, cancel=lambda: True)
        with self.assertRaisesRegex(bbmlab.NotFoundError, "has no row for"):
            bbmlab.route(UNSWITCH)
        with self.assertRaisesRegex(ValueError, "^size 17: it is a multiple"):
            bbmlab.route(free, size=17)
        with self.assertRaisesRegex(ValueError, "the netlist cannot be mapped"):
            bbmlab.route(".model m\n.latch a b\n.end\n")
