"""Keys of bytes."""
import unittest

from typed_keys import Key, KeyReader

ALL = [Key.UP, Key.LEFT, Key.DOWN, Key.RIGHT, Key.ACT, Key.UNDO, Key.RESTART, Key.QUIT]


def keys_of(*pieces):
    reader, keys = KeyReader(), []
    for piece in pieces:
        keys += reader.feed(piece, 0.0)
    return keys


class KeyReaderTest(unittest.TestCase):
    def test_letters_and_capitals(self):
        self.assertEqual(keys_of(b"wasdxzrq"), ALL)
        self.assertEqual(keys_of(b"WASDXZRQ"), ALL)

    def test_arrows(self):
        arrows = [Key.UP, Key.DOWN, Key.RIGHT, Key.LEFT]
        self.assertEqual(keys_of(b"\x1b[A\x1b[B\x1b[C\x1b[D"), arrows)
        self.assertEqual(keys_of(b"\x1bOA\x1bOB\x1bOC\x1bOD"), arrows)

    def test_arrows_in_pieces(self):
        self.assertEqual(keys_of(b"\x1b", b"[", b"A", b"\x1bO", b"Dw"), [Key.UP, Key.LEFT, Key.UP])

    def test_keys_that_go_far(self):
        self.assertEqual(keys_of(b"\x1b[5~\x1b[6~"), [Key.PAGE_UP, Key.PAGE_DOWN])
        for first, last in ((b"\x1b[H", b"\x1b[F"), (b"\x1bOH", b"\x1bOF"), (b"\x1b[1~", b"\x1b[4~"), (b"\x1b[7~", b"\x1b[8~")):
            self.assertEqual(keys_of(first + last), [Key.FIRST, Key.LAST])

    def test_other_keys_are_one_key_that_does_nothing(self):
        for sequence in (b"\x1b[3~", b"\x1b[1;5D", b"\x1b[[A", b"\x1bOP", b"\x1bx", b"\x1b[Z", "é".encode(), b"k", b"\x00"):
            self.assertEqual(keys_of(sequence), [Key.OTHER], sequence)

    def test_enter_space_and_others(self):
        self.assertEqual(keys_of(b"\r\n ?\x0c"), [Key.ENTER, Key.ENTER, Key.SPACE, Key.HELP, Key.DRAW_ANEW])

    def test_a_lone_escape_is_nothing(self):
        reader = KeyReader()
        self.assertEqual(reader.feed(b"\x1b", 1.0), [])
        self.assertEqual(reader.deadline, 1.05)
        self.assertEqual(reader.give_up(), [Key.OTHER])
        self.assertIsNone(reader.deadline)
        self.assertEqual(reader.feed(b"[A", 2.0), [Key.OTHER, Key.LEFT])

    def test_an_escape_before_an_arrow(self):
        self.assertEqual(keys_of(b"\x1b\x1b[A"), [Key.OTHER, Key.UP])


if __name__ == "__main__":
    unittest.main()
