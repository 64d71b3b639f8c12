"""The two limits of texts: each at its last value and one beyond, with the line `limits 2` and without it
(docs/FORMATS.md).
"""

import json
import subprocess
import sys
import tempfile
import time
import unittest
from pathlib import Path
from typing import Callable

import support
from bbmlab_core.certify.certifier import CertificateOptions, certified_text
from bbmlab_core.farm.receipts import section_digests
from bbmlab_core.physics import tracing
from bbmlab_core.pictures import golly
from bbmlab_core.texts import json_form
from bbmlab_core.texts.documents import Document, read_document
from bbmlab_core.texts.layouts import Box
from bbmlab_core.texts.limits import FIRST_LIMITS, SECOND_LIMITS
from bbmlab_core.texts.refusals import explain_refusal, refusal_words
from bbmlab_core.texts.spelling import spell_text
from bbmlab_core.view import viewing

sys.path.insert(0, str(support.LAB / "public"))
import bbmlab  # noqa: E402
from bbmlab._reading import text_as_byte_characters  # noqa: E402

LINE = "limits 2\n"
# The last value without the line, and with it (docs/FORMATS.md, Limits).
SIDE, STEPS, MODULES, GATES, WIRES, BYTES = ((512, 4096), (65_536, 1_048_576), (1024, 65_536), (1024, 16_384),
                                             (4096, 65_000), (16_777_216, 268_435_456))
EMPTY = "circuit\nend\n"


def layout(width: int = 2, height: int = 2, steps: int = 0, *parts: str) -> str:
    """Returns a layout section."""
    return "\n".join([f"layout {width} {height} {steps}", *parts, "end"]) + "\n"


def wires(count: int, made: str = "input", ended: str = "output") -> str:
    """Returns a circuit of some wires, by the words before each name in its first and in its last line."""
    lines = [f"{words} w{number}" for words in (made, ended) for number in range(count)]
    return "\n".join(["circuit", *lines, "end"]) + "\n"


def gates(count: int) -> str:
    """Returns a circuit of some sources."""
    return wires(count, "source 0 ->", "spill")


def modules(count: int) -> str:
    """Returns a bundle in modules of one block, in rows of 512 cells."""
    rows = -(-count // 256)
    boxes = [f"module {2 * (number % 256)} {2 * (number // 256)} 2 2" for number in range(count)]
    return EMPTY + layout(512, 2 * rows) + "\n".join(["certificate 2", *boxes, "end"]) + "\n"


def small_boxes(width: int, height: int) -> list[Box]:
    """Returns boxes of two by at most four cells that cover a layout."""
    return [Box(x, y, 2, min(4, height - y)) for y in range(0, height, 4) for x in range(0, width, 2)]


# For each limit its two values, the next value that is refused, the text of a value, the command, and the line that is
# refused without `limits 2`.
Case = tuple[tuple[int, int], int, Callable[[int], str], str, Callable[[int], int]]
CASES: dict[str, Case] = {
    "width": (SIDE, 2, lambda side: layout(side), "layout", lambda _: 1),
    "height": (SIDE, 2, lambda side: layout(2, side), "layout", lambda _: 1),
    "steps": (STEPS, 1, lambda steps: layout(2, 2, steps), "layout", lambda _: 1),
    "gates": (GATES, 1, gates, "circuit", lambda count: 1 + count),
    "wires": (WIRES, 1, wires, "circuit", lambda count: 1 + count),
}


def refusal_of(text: str, command: str = "check") -> str | None:
    """Returns the refusal of a text as the program prints it, or None."""
    refusal = read_document(text, command).refusal
    return f"refused {refusal.line} {refusal.code}" if refusal else None


class Values(unittest.TestCase):
    """The last value of each limit and the one after it, and where and how the line is written."""

    def test_last_value_and_one_beyond(self) -> None:
        """The last value is taken, and the next is refused with code 2 at the line that makes it so; `limits 2` counts
        as line 1."""
        for name, ((low, high), step, maker, command, line) in CASES.items():
            with self.subTest(name):
                self.assertIsNone(refusal_of(maker(low), command))
                self.assertEqual(refusal_of(maker(low + step), command), f"refused {line(low + step)} 2")
                self.assertIsNone(refusal_of(LINE + maker(low + step), command))
                self.assertIsNone(refusal_of(LINE + maker(high), command))
                self.assertEqual(refusal_of(LINE + maker(high + step), command), f"refused {1 + line(high + step)} 2")

    def test_mirrors(self) -> None:
        """A mirror of the largest side is taken, one longer is refused with code 2 before it is outside the rectangle.
        """
        for front, most in (("", SIDE[0]), (LINE, SIDE[1])):
            for turned in (False, True):
                shape = (lambda side: f"mirror 0 0 1 {side}") if turned else (lambda side: f"mirror 0 0 {side} 1")
                self.assertIsNone(refusal_of(front + layout(most, most, 0, shape(most)), "layout"))
                self.assertEqual(refusal_of(front + layout(most, most, 0, shape(most + 1)), "layout"),
                                 f"refused {2 + bool(front)} 2")

    def test_modules(self) -> None:
        """The last module is taken, and one more is refused with code 2."""
        self.assertIsNone(refusal_of(modules(MODULES[0])))
        # Module 0 is line 6, after the lines of two sections and the certificate's header.
        for front, most in (("", MODULES[0]), (LINE, MODULES[1])):
            self.assertEqual(refusal_of(front + modules(most + 256)), f"refused {6 + bool(front) + most} 2")
        self.assertIsNone(refusal_of(LINE + modules(MODULES[1])))

    def test_bytes(self) -> None:
        """A text of the most bytes is read, and one byte more is an error of the call."""
        for front, most in (("", BYTES[0]), (LINE, BYTES[1])):
            text = front + "x" * (most - len(front))
            self.assertEqual(len(text_as_byte_characters(text)), most)
            with self.assertRaises(OSError):
                text_as_byte_characters(text + "x")

    def test_small_texts_of_large_layouts(self) -> None:
        """A mirror over the whole of the largest layout, and a module that is missing there, take little time and
        memory."""
        begun = time.process_time()
        self.assertIsNone(refusal_of(LINE + layout(4096, 4096, 0, "mirror 0 0 4096 4096"), "layout"))
        self.assertEqual(refusal_of(LINE + layout(4096, 4096, 0, "mirror 0 0 4096 4096", "ball 4095 4095"), "layout"),
                         "refused 4 7")
        self.assertEqual(refusal_of(LINE + EMPTY + layout(4096, 4096) + "certificate 2\nmodule 0 0 64 64\nend\n"),
                         "refused 8 11")
        self.assertLess(time.process_time() - begun, 2.0)

    def test_all_else_is_as_before(self) -> None:
        """A box of 66 cells, the thirteenth cut, a delay of 4097 steps and a name of 33 bytes are refused with the line
        too."""
        self.assertEqual(refusal_of(LINE + EMPTY + layout(128, 2) + "certificate 2\nmodule 0 0 66 2\nend\n"),
                         "refused 7 2")
        self.assertEqual(refusal_of(LINE + "circuit\ninput a\ndelay 4097 a -> b\n", "circuit"), "refused 4 2")
        self.assertEqual(refusal_of(LINE + f"circuit\ninput {'a' * 33}\n", "circuit"), "refused 3 1")

    def test_other_first_lines(self) -> None:
        """Other numbers and other spellings are refused as any first line that begins no section."""
        for line in ("limits 1", "limits 3", "limits 02", "limits", "limits 2 ", " limits 2", "limits  2", "limits 2\r",
                     "Limits 2", "limits two"):
            for command in ("check", "run", "value", "modules", "migrate"):
                self.assertEqual(refusal_of(f"{line}\n{EMPTY}", command), "refused 1 1", line)
        self.assertEqual(refusal_of("limits 2", "check"), "refused 1 12")
        self.assertEqual(refusal_of("limits 2\n", "check"), "refused 2 12")

    def test_line_elsewhere(self) -> None:
        """Elsewhere the line is refused with code 1, and behind the last section with code 12."""
        bundle = EMPTY + layout() + "certificate 2\nmodule 0 0 2 2\nend\n"
        lines = bundle.split("\n")[:-1]
        for front in ("", LINE):
            for place in range(1 if not front else 0, len(lines)):
                text = front + "\n".join([*lines[:place], "limits 2", *lines[place:], ""])
                self.assertEqual(refusal_of(text), f"refused {place + 1 + bool(front)} 1", text)
            self.assertEqual(refusal_of(front + bundle + LINE), f"refused {len(lines) + 1 + bool(front)} 12")

    def test_messages_name_the_line(self) -> None:
        """What the lab says of a number over the first limits names the line, and of one over the second does not."""
        for name, ((low, high), step, maker, command, _) in CASES.items():
            with self.subTest(name):
                document = read_document(maker(low + step), command)
                self.assertIn("needs `limits 2` as first line", self.told(document))
                self.assertNotIn("limits 2", self.told(read_document(LINE + maker(high + step), command)))
        self.assertIn("first line of a text", refusal_words(read_document("limits 3\n" + EMPTY, "check")))

    def told(self, document: Document) -> str:
        """Returns what the lab says of a refusal, with its hints."""
        assert document.refusal
        told = explain_refusal(document, document.refusal)
        return " ".join([*told.what, *told.hints])


class Forms(unittest.TestCase):
    """The line in what the lab writes."""

    def test_fmt_keeps_the_line(self) -> None:
        """A text in its one spelling keeps the line, which may be written freely before all sections."""
        text = LINE + EMPTY + layout(514)
        self.assertEqual(spell_text(text).text, text)
        self.assertEqual(spell_text(f"\ufeff# large\n\n  limits   02 # as below\r\n{EMPTY}{layout(514)}").text, text)
        self.assertEqual(spell_text(LINE + LINE + EMPTY).text, LINE + LINE + EMPTY)
        self.assertEqual(spell_text(LINE + "circuit\noutput a\ninput a\nend\n").text,
                         LINE + "circuit\ninput a\noutput a\nend\n")

    def test_json(self) -> None:
        """A document has the member `limits` only if the text has the line, and gives the text again.

        Older documents have none.
        """
        for text in (EMPTY + layout(512), LINE + EMPTY + layout(512), LINE + EMPTY + layout(4096)):
            made = json_form.document_json_text(read_document(text), None)
            self.assertEqual(json.loads(made).get("limits"), 2 if text.startswith(LINE) else None)
            self.assertEqual(json_form.text_from_json(made), text)
        without = json.loads(json_form.document_json_text(read_document(EMPTY + layout()), None))
        self.assertEqual(json_form.text_from_json(json.dumps({**without, "limits": 1})), EMPTY + layout())
        for wrong in (0, 3, "2", True, None, 2.0):
            with self.assertRaisesRegex(Exception, "limits is .* and not 1 or 2"):
                json_form.text_from_json(json.dumps({**without, "limits": wrong}))

    def test_api(self) -> None:
        """A bundle knows the line, and gives its text again."""
        for text in (EMPTY + layout(), LINE + EMPTY + layout(4096)):
            bundle = bbmlab.read(text)
            self.assertEqual((bundle.limits, str(bundle)), (2 if text.startswith(LINE) else 1, text))
        states = list(bbmlab.simulate(bbmlab.Layout(1024, 2, 2).mirror(1000, 0, 2, 2)))
        self.assertEqual(len(states), 3)

    def test_receipts(self) -> None:
        """The digests of the sections are those of the text without the line."""
        text = EMPTY + layout() + "certificate 2\nmodule 0 0 2 2\nend\n"
        self.assertEqual(section_digests((LINE + text).encode()), section_digests(text.encode()))
        self.assertIsNotNone(section_digests((LINE + text).encode())["certificate"])

    def test_golly_and_run(self) -> None:
        """A large layout goes to Golly and comes again, with the line; a run gets it too."""
        text = LINE + layout(4096, 64, 7, "mirror 2001 30 2 2", "ball 4000 40")
        document = read_document(text)
        assert document.layout
        lines = tracing.layout_section_lines(document)
        self.assertEqual("\n".join(lines) + "\n", text)
        start = tracing.trace_layout(document.layout, [], 0, 0).states[0]
        pattern = golly.golly_text(document.layout, start, [], lines)
        self.assertEqual(golly.layout_text_from_golly(pattern), text)
        bare = "\n".join(line for line in pattern.split("\n") if not line.startswith("#C"))
        self.assertRegex(golly.layout_text_from_golly(bare), r"\Alimits 2\nlayout \d+ \d+ 0\n")
        self.assertTrue(tracing.bytes_for_run_command(lines, []).startswith(b"limits 2\nlayout 4096 "))

    def test_certify_writes_the_line_only_if_asked(self) -> None:
        """A certificate of a layout within the first limits comes without the line, and any other with it."""
        for side, has_line in ((512, False), (514, True)):
            for front in {"", LINE} if not has_line else {LINE}:
                made = certified_text(read_document(front + EMPTY + layout(side, 4), "design"), None,
                                      CertificateOptions())
                self.assertEqual(made.startswith(LINE), has_line)
                self.assertIsNone(refusal_of(made))
        tall = certified_text(read_document(EMPTY + layout(512, 512), "design"), [], CertificateOptions())
        self.assertFalse(tall.startswith(LINE))
        many = certified_text(read_document(EMPTY + layout(128, 130), "design"), small_boxes(128, 130),
                              CertificateOptions())
        self.assertTrue(many.startswith(LINE))

    def test_studio_has_the_same_numbers(self) -> None:
        """The table of the pages is that of the lab."""
        support.require("node", "nodejs")
        source = (viewing.TEMPLATE_FOLDER / "limits.js").as_uri()
        script = f"""import {{ FIRST_LIMITS, SECOND_LIMITS }} from {json.dumps(source)};
console.log(JSON.stringify([FIRST_LIMITS, SECOND_LIMITS]));"""
        ended = subprocess.run(["node", "--input-type=module", "-e", script], capture_output=True, text=True,
                               check=True)
        told = [(own["line"], own["maxSide"], own["maxSteps"]) for own in json.loads(ended.stdout)]
        self.assertEqual(told, [(own.line_text.strip(), own.max_side, own.max_steps)
                                for own in (FIRST_LIMITS, SECOND_LIMITS)])


class Runs(support.InRoom):
    """Runs of large layouts, and what a program that knows the line says."""

    TEXT = LINE + layout(4096, 4096, 40, "mirror 4081 4080 2 2", "mirror 1031 1030 2 2", "ball 4064 4064",
                         "ball 1020 1020", "ball 4091 4000", "ball 45 4089", "ball 2044 1023")

    def test_cells_do_not_depend_on_their_place(self) -> None:
        """Balls far from the corner fly as those near it do: a ball at an even cell goes right and down (Margolus 1984,
        block rule)."""
        states = list(bbmlab.simulate(bbmlab.Layout(4096, 4096, 9).ball(4080, 2050)))
        self.assertEqual([sorted(state.cells) for state in states],
                         [[(4080 + time, 2050 + time)] for time in range(10)])

    def test_page_and_lab_agree(self) -> None:
        """The page's runs give the lab's states, up to the largest side."""
        document = read_document(self.TEXT)
        assert document.layout
        data = {**support.data_of(document), "circuit": None, "certificate": None}
        told = support.node("run_modules.js", [["states", {"data": data, "on": [], "times": [0, 7, 40, 11]}]])[0]
        wanted = tracing.trace_layout(document.layout, [], 0, 40).states
        for moment, cells in told["states"]:
            self.assertEqual({tuple(cell) for cell in cells}, wanted[moment], moment)
        self.assertNotEqual(wanted[0], wanted[40])

    def test_large_layout_gets_a_yes(self) -> None:
        """A layout of 4096 columns in modules of 64 by 64 gets a yes, by `certify`."""
        path = support.program_of_limits_2()
        source, made = self.room / "large.txt", self.room / "made.txt"
        source.write_text(LINE + EMPTY + layout(4096, 128, 1))
        self.assert_ends(0, "certify", str(source), "--grid", "64,64", "-o", str(made), "--program", path,
                         err="says yes")
        self.assertTrue(made.read_text().startswith(LINE))

    def test_fix_adds_the_line(self) -> None:
        """`explain` proposes the line, which it tried."""
        path = support.program_of_limits_2()
        boxes = "".join(f"module {x} 0 64 2\n" for x in range(0, 1024, 64))
        ended = support.lab("explain", "-", "--program", path,
                            text=EMPTY + layout(1024, 2) + f"certificate 2\n{boxes}end\n")
        self.assertIn("Add `limits 2` before the first line", ended.stdout + ended.stderr)

    def test_route_writes_the_line_only_if_asked(self) -> None:
        """A routed bundle of 512 by 512 comes without the line, one of 528 by 528 with it, and both get a yes."""
        path = support.program_of_limits_2()
        for side in ("512", "528"):
            with tempfile.TemporaryDirectory() as room:
                made = Path(room) / "made.txt"
                self.assert_ends(0, "route", support.example("half_adder"), "--size", side, "-o", str(made),
                                 "--program", path, err="verdict yes")
                self.assertEqual(made.read_text().startswith(LINE), side == "528")
