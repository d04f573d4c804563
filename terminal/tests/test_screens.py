"""Screens: what views are handed, and where they are begun anew."""
import unittest
from unittest import mock

import view_screen
from plain_screen import PlainScreen
from player import Fault
from run_output import OutputReader

START = b"= T\n# level 1\nP..\n\n"


class FakeConsole:
    screen = 1

    def __init__(self):
        self.now, self.written = (24, 80), ""

    def size(self):
        return self.now

    def write(self, text):
        self.written += text

    def leave_at(self, row):
        self.written += f"left at {row}"


class FakeView:
    """A view that keeps what it was handed; all of a test are in `all`."""

    all = []
    is_broken = False

    def __init__(self, player, game, size, screen):
        self.size, self.handed, self.is_ended = size, b"", False
        FakeView.all.append(self)

    def hand(self, data):
        if FakeView.is_broken:
            raise Fault(b"broken", 1)
        self.handed += data

    def end(self):
        self.is_ended = True


class ViewScreenTest(unittest.TestCase):
    def setUp(self):
        patch = mock.patch.object(view_screen, "View", FakeView)
        patch.start()
        self.addCleanup(patch.stop)
        FakeView.all, FakeView.is_broken = [], False
        self.console = FakeConsole()
        self.screen = view_screen.ViewScreen(self.console, "player", "game")

    def show(self, data):
        for part in OutputReader().feed(data):
            self.screen.show(part)

    def last(self):
        return FakeView.all[-1].handed

    def test_the_output_is_handed_on(self):
        self.show(START)
        self.screen.note("of 3, 1 move")
        self.show(b".P.\n\n! Hi\n")
        self.screen.ask("Quit?")
        self.screen.take_back()
        self.assertEqual(self.last(), START + b"~ of 3, 1 move\n.P.\n\n! Hi\n? Quit?\n! Hi\n")

    def test_another_size(self):
        self.show(START)
        self.screen.note("of 3, 0 moves")
        self.show(b"..P\n\n")
        self.screen.ask("Quit?")
        self.console.now = (3, 9)
        self.screen.redraw()
        self.assertTrue(FakeView.all[0].is_ended)
        self.assertEqual(FakeView.all[1].size, (3, 9))
        self.assertEqual(self.last(), b"= T\n# level 1\n~ of 3, 0 moves\n..P\n\n? Quit?\n")

    def test_a_high_board_on_a_low_screen(self):
        self.console.now = (8, 20)
        self.show(START)
        self.assertEqual(FakeView.all[-1].size, (8, 20))
        high = b"= T\n# level 1\n" + b"P\n" * 6 + b"\n"
        self.show(high)
        self.assertEqual((FakeView.all[-1].size, self.last()), ((7, 20), high))
        self.screen.leave(b"* quit\n")
        self.assertEqual((FakeView.all[-1].size, self.last()), ((7, 20), high + b"* quit\n"))
        self.console.now = (11, 20)
        self.screen.redraw()
        self.assertEqual(FakeView.all[-1].size, (11, 20))

    def test_pages(self):
        self.console.now = (8, 16)
        self.show(START + b"! one two three four five six\n")
        self.assertTrue(self.last().endswith(b"! one two three four five\n"))
        self.assertTrue(self.screen.turn_page())
        self.assertTrue(self.last().endswith(b"! six\n"))
        self.screen.redraw()
        self.assertEqual(self.last(), START + b"! six\n")
        self.assertFalse(self.screen.turn_page())
        self.screen.clear_news()
        self.screen.redraw()
        self.assertEqual(self.last(), START + b"? \n")

    def test_a_question_that_is_too_long(self):
        self.console.now = (8, 10)
        self.show(START)
        self.screen.ask("Quit? q again quits, any other key goes on.")
        self.assertEqual(self.last(), START + "? Quit? q again qui\u2026\n".encode())
        self.console.now = (24, 80)
        self.screen.redraw()
        self.assertEqual(self.last(), START + b"? Quit? q again quits, any other key goes on.\n")

    def test_bytes_that_are_no_text_are_handed_on(self):
        self.show(START + b"! a\xffb\n")
        self.assertTrue(self.last().endswith(b"! a\xffb\n"))

    def test_leaving(self):
        self.screen.redraw()
        self.screen.leave(b"* interrupted\n")
        self.assertEqual(FakeView.all, [])
        self.show(START)
        self.screen.leave(b"* quit\n")
        self.assertEqual(self.last(), START + b"* quit\n")
        self.assertEqual(len(FakeView.all), 1)

    def test_leaving_a_screen_of_another_size(self):
        self.show(START)
        self.console.now = (30, 90)
        self.screen.leave(b"* quit\n")
        self.assertEqual(FakeView.all[-1].size, (29, 90))

    def test_leaving_a_full_screen_scrolls_nothing(self):
        self.show(b"= T\n# level 1\n" + b"P\n" * 20 + b"\n")
        self.screen.leave(b"* quit\n")
        self.assertEqual(FakeView.all[-1].size, (23, 80))
        self.assertTrue(self.last().endswith(b"P\n\n* quit\n"))

    def test_leaving_a_broken_view(self):
        self.show(START)
        FakeView.is_broken = True
        self.screen.leave(b"* broken off\n")
        self.assertEqual(self.console.written, "left at 24")


class PlainScreenTest(unittest.TestCase):
    def test_nothing_is_an_order(self):
        console = FakeConsole()
        screen = PlainScreen(console)
        screen.leave(b"* broken off\n")
        for part in OutputReader().feed(b"= T\x1b[2J\n! \xe2\x80\xaea\xff\n"):
            screen.show(part)
        screen.ask("Quit?")
        screen.leave(b"* quit\n")
        self.assertEqual(console.written, "= T·[2J\n! ·a\ufffd\n? Quit?\n* quit\n")


if __name__ == "__main__":
    unittest.main()
