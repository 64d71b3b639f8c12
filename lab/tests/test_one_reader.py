"""The page reads words and lines as the server does, for each byte in each place, so that a yes is about the picture.
"""

import unittest
from pathlib import Path

import support
from bbmlab_core.texts.skimming import design_text
from bbmlab_core.studio.folder import decode_page_text, encode_page_text
from bbmlab_core.texts.documents import read_document
from bbmlab_core.texts.spelling import byte_order_mark_length, spell_text, words_without_comment
from test_studio_model import node

# Bytes, and characters that JavaScript or Python take for spaces, ends of lines or digits.
PIECES = [*(bytes([byte]) for byte in range(256)),
          *(char.encode() for char in "\x85\xa0\u2028\u2029\u3000\ufeff\u0661\u00b2"), b"\r\r", b"\t \t", b"\r#",
          b"#\r", b"\r ", b"\r\t#"]
# The places of a piece in a text.
PLACES = [b"%b", b"a%bb", b"a %bb", b"a%b b", b"%ba", b"a%b", b"a%b\nb", b"a\n%bb", b"# a%bb\nc", b"0%b01",
          b"layout%b8 8 3", b"->%b->", b"a%b->b"]


class OneReader(unittest.TestCase):
    """Python and JavaScript."""

    def test_words_and_lines(self) -> None:
        """Each byte gives the same words in the same lines, wherever it is."""
        texts = [place.replace(b"%b", piece) for place in PLACES for piece in PIECES]
        found, = node(["words", [decode_page_text(text) for text in texts]])
        for text, words in zip(texts, found):
            own = [[encode_page_text(word).decode("latin-1") for word in line] for line in words]
            lines = text.decode("latin-1")[byte_order_mark_length(text.decode("latin-1")):].split("\n")
            self.assertEqual(own, [words for words in map(words_without_comment, lines) if words], text)
            once = spell_text(text.decode("latin-1")).text
            self.assertEqual("".join(" ".join(line) + "\n" for line in own), once, text)
            self.assertEqual(spell_text(once).text, once, text)

    def test_pictures(self) -> None:
        """What is drawn is the circuit and the layout that the program reads, whatever byte is where: as a space, in a
        word, or between parts."""
        good = Path(support.example("gate_and_mirror")).read_bytes()
        changes = [(b"\nmirror ", b"%bmirror "), (b"\nmirror ", b"\n%bmirror "), (b"\nin p ", b"\nin%bp "),
                   (b"\noutput ", b"%boutput "), (b"\nlayout ", b"\n%blayout "),
                   (b"\nlayout ", b"\nlayout%b"), (b"circuit\n", b"%bcircuit\n"), (b"\nend\n", b"\nend%b\n"),
                   (b" -> ", b"%b->%b")]
        texts = [good.replace(old, new.replace(b"%b", piece)) for old, new in changes for piece in PIECES]
        found, = node(["drawn", [decode_page_text(text) for text in texts]])
        yes = 0
        for text, drawn in zip(texts, found):
            own = spell_text(text.decode("latin-1")).text
            if read_document(own, "check").refusal is None:
                yes += 1
                self.assertEqual(drawn, design_text(own), text)
        self.assertGreater(yes, 20)

    def test_parts_joined_by_carriage_returns(self) -> None:
        """A text of one line, with carriage returns in the place of line feeds, is refused and drawn as nothing."""
        good = support.text_of("gate_and_mirror")
        for text in (good.replace("\n", "\r"), good.replace("\nin ", "\rin "),
                     good.replace("\nmirror ", "\x1emirror ").replace(" ", "\x1f")):
            self.assertNotEqual(text, good)
            self.assertIsNotNone(read_document(spell_text(text).text, "check").refusal)
