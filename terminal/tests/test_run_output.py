"""An output, told apart, counted and paced."""
import unittest

from moves import MoveCount
from pacing import Pacing
from run_output import Kind, OutputReader, Part, level_number
from typed_keys import Key

OUTPUT = b"= T\n! Hi\n# level 1\n#P#\n\n* level 1 done\n* won\n"
KINDS = [Kind.TITLE, Kind.MESSAGE, Kind.LEVEL, Kind.FRAME, Kind.DONE, Kind.ENDING]


class OutputReaderTest(unittest.TestCase):
    def test_parts(self):
        parts = OutputReader().feed(OUTPUT)
        self.assertEqual([part.kind for part in parts], KINDS)
        self.assertEqual(b"".join(part.data for part in parts), OUTPUT)

    def test_parts_in_pieces(self):
        reader, parts = OutputReader(), []
        for place in range(len(OUTPUT)):
            parts += reader.feed(OUTPUT[place:place + 1])
        self.assertEqual(parts, OutputReader().feed(OUTPUT))
        self.assertFalse(reader.is_within())

    def test_within_a_frame(self):
        reader = OutputReader()
        reader.feed(b"###\n")
        self.assertTrue(reader.is_within())

    def test_rows_that_look_like_marks(self):
        self.assertEqual(OutputReader().feed(b"=#\n*!\n\n"), [Part(Kind.FRAME, b"=#\n*!\n\n")])

    def test_lines_of_a_trace(self):
        parts = OutputReader().feed(b"> up\n  | turn without a key\n#P#\n\n")
        self.assertEqual([part.kind for part in parts], [Kind.TRACE, Kind.TRACE, Kind.FRAME])

    def test_level_numbers(self):
        self.assertEqual(level_number(b"# level 12\n"), 12)
        self.assertEqual(level_number(b"# level \n"), 0)


class MoveCountTest(unittest.TestCase):
    def setUp(self):
        self.moves = MoveCount()
        self.moves.frame_comes(b"0")

    def play(self, key, *frames):
        self.moves.key_sent(key)
        for frame in frames:
            self.moves.frame_comes(frame)
        return self.moves.count

    def test_a_change_is_one_move(self):
        self.assertEqual(self.play(Key.RIGHT, b"1", b"2", b"3"), 1)
        self.assertEqual(self.play(Key.ACT, b"3", b"4"), 2)
        self.assertEqual(self.moves.text(), "2 moves")

    def test_nothing_changed(self):
        self.assertEqual(self.play(Key.RIGHT, b"0"), 0)

    def test_undo(self):
        self.play(Key.RIGHT, b"1", b"2")
        self.play(Key.RIGHT, b"2")
        self.assertEqual(self.moves.text(), "1 move")
        self.assertEqual(self.play(Key.UNDO, b"0"), 0)
        self.assertEqual(self.play(Key.UNDO, b"0"), 0)

    def test_restart_and_its_undo(self):
        self.play(Key.RIGHT, b"1")
        self.play(Key.LEFT, b"0")
        self.assertEqual(self.play(Key.RESTART, b"0"), 0)
        self.assertEqual(self.play(Key.UNDO, b"0"), 2)
        self.assertEqual(self.play(Key.UNDO, b"1"), 1)

    def test_frames_without_a_key(self):
        self.assertEqual(self.play(None, b"1", b"2"), 0)


class PacingTest(unittest.TestCase):
    FRAME, LEVEL = Part(Kind.FRAME, b"P\n\n"), Part(Kind.LEVEL, b"# level 2\n")
    DONE, MESSAGE = Part(Kind.DONE, b"* level 1 done\n"), Part(Kind.MESSAGE, b"! Hi\n")

    def shown(self, *parts):
        pacing = Pacing()
        for part in parts:
            pacing.shown(part, 5.0)
        return pacing

    def test_frames_of_a_key(self):
        pacing = self.shown(self.FRAME)
        self.assertEqual(pacing.due(self.FRAME, False), 5.1)
        self.assertIsNone(pacing.due(self.FRAME, True))
        self.assertIsNone(pacing.due(self.MESSAGE, False))
        pacing.key_sent()
        self.assertIsNone(pacing.due(self.FRAME, False))

    def test_a_won_board(self):
        pacing = self.shown(self.FRAME, self.DONE)
        self.assertTrue(pacing.is_won_before(self.LEVEL))
        self.assertEqual(pacing.due(self.LEVEL, False), 6.0)
        self.assertEqual(pacing.due(self.LEVEL, True), 5.3)
        self.assertIsNone(pacing.due(self.MESSAGE, False))

    def test_a_message_shows_the_won_board(self):
        pacing = self.shown(self.FRAME, self.DONE, self.MESSAGE)
        self.assertFalse(pacing.is_won_before(self.LEVEL))


if __name__ == "__main__":
    unittest.main()
