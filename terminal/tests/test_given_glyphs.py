"""Letters for objects without a glyph."""
import unittest

from given_glyphs import with_glyphs
from player import Described, Fault

TEXT = b"""title T
(
LEGEND
)
=======
LEGEND
=======
. = Background
P = Player

COLLISIONLAYERS
"""


class Text:
    """A text in memory."""
    path = "text"

    def __init__(self, data):
        self.data = self.now = data

    def write(self, data):
        self.now = data


class Player:
    """It knows lines of LEGEND after the second header, and takes letters that aren't reserved."""

    def __init__(self, text, objects, reserved=""):
        self.text, self.objects, self.reserved, self.calls = text, objects, reserved, 0

    def describe(self, _path):
        self.calls += 1
        legend = self.text.now.decode().split("=======\nLEGEND\n=======\n")[1]
        glyphs = [line.split(" = ") for line in legend.splitlines() if " = " in line]
        folded = [glyph.lower() for glyph, _ in glyphs]
        if len(set(folded)) < len(folded) or set(folded) & set(self.reserved):
            raise Fault(b"line 1: NA1", 1)
        shown = [name for _, name in glyphs]
        return Described({
            "glyphs": [{"glyph": glyph, "objects": [name]} for glyph, name in glyphs],
            "without_glyph": [name for name in self.objects if name not in shown],
        })


def given(objects, reserved=""):
    """The glyphs that such objects are given, the text that is played, and how often the player was asked."""
    text = Text(TEXT)
    player = Player(text, objects, reserved)
    described = with_glyphs(player, text, player.describe(text.path))
    return {name: glyph for glyph, name in ((g, o[0]) for g, o in described.glyphs)}, text.now, player.calls


class GivenGlyphsTest(unittest.TestCase):
    def test_nothing_is_given_where_all_have_one(self):
        self.assertEqual(given(["Background", "Player"]), ({"Background": ".", "Player": "P"}, TEXT, 1))

    def test_the_first_letter_that_is_left(self):
        glyphs, text, _calls = given(["Player", "Crate", "Pipe", "Cart"])
        self.assertEqual((glyphs["Crate"], glyphs["Pipe"], glyphs["Cart"]), ("C", "i", "a"))
        self.assertEqual(list(glyphs), ["Background", "Player", "Crate", "Pipe", "Cart"])
        self.assertIn(b"LEGEND\n=======\nC = Crate\ni = Pipe\na = Cart\n. = Background\n", text)
        self.assertTrue(text.startswith(b"title T\n(\nLEGEND\n)\n"))

    def test_letters_that_the_text_does_not_take(self):
        glyphs, _text, _calls = given(["Crate", "Door"], "c")
        self.assertEqual((glyphs["Crate"], glyphs["Door"]), ("r", "D"))

    def test_names_without_a_letter_that_is_left(self):
        glyphs, text, _calls = given(["Pp", "Door"], "do")
        self.assertNotIn("Pp", glyphs)
        self.assertEqual(glyphs["Door"], "r")
        glyphs, text, _calls = given(["Pp"])
        self.assertEqual(text, TEXT)

    def test_tries_end(self):
        _glyphs, text, calls = given([f"Abcdefgh{number}" for number in range(40)], "abcdefgh")
        self.assertLess(calls, 200)
        self.assertEqual(text, TEXT)


if __name__ == "__main__":
    unittest.main()
