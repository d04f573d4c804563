"""Texts: harmless, in rows, in pages."""
import unittest

from harmless import decoded, harmless, harmless_lines, name_text
from messages import Message, page_starts, room_below
from widths import columns_of, cut, folded, hanging, width, wrapped


class HarmlessTest(unittest.TestCase):
    def test_orders_become_dots(self):
        self.assertEqual(harmless("a\x1b[2Jb\x07\x7f\x9b\n"), "a·[2Jb····")

    def test_turns_of_direction_become_dots(self):
        self.assertEqual(harmless("a\u202eb\u2066c\u2069\u202a"), "a·b·c··")

    def test_lines_keep_their_ends(self):
        self.assertEqual(harmless_lines("a\r\nb\x1b\n"), "a·\nb·\n")

    def test_no_utf_8_becomes_a_mark(self):
        self.assertEqual(decoded(b"a\xffb"), "a\ufffdb")
        self.assertEqual(harmless("a\udc80"), "a\ufffd")
        self.assertEqual(name_text("a\udcff\x1b"), "a\ufffd·")


class WidthTest(unittest.TestCase):
    def test_columns(self):
        self.assertEqual([columns_of(c) for c in "a漢\u0301é"], [1, 2, 0, 1])
        self.assertEqual(width("a漢"), 3)

    def test_long_texts_are_cut(self):
        self.assertEqual(cut("abcd", 4), "abcd")
        self.assertEqual(cut("abcde", 4), "abc…")
        self.assertEqual(cut("漢漢漢", 4), "漢…")

    def test_rows_are_broken_between_words(self):
        self.assertEqual(wrapped("a bc def gh", 6), ["a bc", "def gh"])
        self.assertEqual(wrapped("abcdefgh i", 4), ["abcd", "efgh", "i"])
        self.assertEqual(wrapped("", 4), [""])

    def test_rows_that_are_set_in(self):
        self.assertEqual(hanging("  x  one two three", 18), ["  x  one two three"])
        self.assertEqual(hanging("  x  one two three", 16), ["  x  one two", "    three"])
        self.assertEqual(hanging("  x  one two three", 12), ["  x  one two three"])

    def test_lines_are_folded(self):
        self.assertEqual(folded("one two three\n  one two three\n", 8), "one two\nthree\n  one two three\n")

    def test_a_row_without_room_takes_a_character(self):
        self.assertEqual(wrapped("漢a", 1), ["漢", "a"])


class MessageTest(unittest.TestCase):
    TEXT = " ".join(f"word{number}" for number in range(60))

    def test_room(self):
        self.assertEqual([room_below(rows) for rows in (1, 2, 3, 7, 8, 24)], [1, 1, 2, 4, 2, 18])

    def test_a_short_message_is_one_page(self):
        self.assertEqual(page_starts("Well done", (24, 80)), [0])

    def test_pages_fit_and_lose_nothing(self):
        for size in [(8, 16), (5, 20), (10, 13), (3, 7), (24, 40), (8, 6)]:
            message, pages = Message(self.TEXT, size), []
            while not pages or message.turn_page():
                pages.append(message.page())
                self.assertLessEqual(len(wrapped(f"! {pages[-1]} [x]", size[1])), room_below(size[0]), (size, pages[-1]))
            self.assertEqual("".join(pages).replace(" ", ""), self.TEXT.replace(" ", ""))

    def test_a_long_word_is_broken(self):
        message = Message("x" * 100, (8, 16))
        self.assertEqual(message.page(), "x" * 14)
        self.assertTrue(message.turn_page())

    def test_without_room_it_is_one_page(self):
        self.assertEqual(page_starts(self.TEXT, (1, 1)), [0])

    def test_another_size_keeps_the_place(self):
        message = Message(self.TEXT, (8, 16))
        for _ in range(5):
            message.turn_page()
        first = message.page().split()[0]
        message.resize((10, 20))
        self.assertIn(first, message.page().split())
        message.resize((24, 80))
        self.assertEqual(message.page(), self.TEXT)


if __name__ == "__main__":
    unittest.main()
