"""A game that is played, with a run, a screen and a clock of the test."""
import collections
import unittest
from unittest import mock

import playing
from events import Event, Kind
from player import Described
from playing import QUIT_QUESTION, Game, Playing
from typed_keys import Key

SAID = {"title": "T", "levels": 3, "ignored_keys": ["undo"], "glyphs": [{"glyph": "P", "objects": ["Player"]}]}
START = b"= T\n# level 1\nP..\n\n"


class Clock:
    now = 100.0

    def monotonic(self):
        return self.now


class FakeRun:
    """Answers keys by what it was told to, one answer for each."""

    output = 7
    has_ended = False

    def __init__(self, events, answers):
        self.sent, self.events, self.answers = b"", events, collections.deque(answers)

    def send(self, key):
        self.sent += key
        if self.answers:
            self.events.come(self.answers.popleft())
        return not self.has_ended


class FakeEvents:
    """Tells what is written at once, and keys, one after the other, when nothing else happens until some time."""

    output = None

    def __init__(self, clock, keys):
        self.clock, self.keys, self.coming = clock, collections.deque(keys), collections.deque()

    def come(self, data):
        self.coming.append(Event(Kind.OUTPUT, data))

    def next(self, deadline=None):
        if self.coming:
            return self.coming.popleft()
        if deadline is not None:
            self.clock.now = max(self.clock.now, deadline)
            return Event(Kind.TIME, None)
        self.clock.now += 10
        if not self.keys:
            return Event(Kind.OUTPUT, b"")
        key = self.keys.popleft()
        return key if isinstance(key, Event) else Event(Kind.KEY, key)

    def drop_keys(self):
        pass

    def stop(self):
        pass


class FakeScreen:
    """Keeps what it is told, with the times of frames."""

    is_paced = True

    def __init__(self, clock, pages=1):
        self.clock, self.said, self.times, self.pages = clock, [], [], pages

    def show(self, part):
        self.said.append(part.data)
        if part.kind.name == "FRAME":
            self.times.append(round(self.clock.now, 2))

    def turn_page(self):
        self.pages -= 1
        return self.pages > 0

    def note(self, text):
        self.said.append(f"~ {text}")

    def ask(self, text):
        self.said.append(f"? {text}")

    def read(self, lines, events):
        self.said.append(lines)

    def leave(self, ending):
        self.said.append(ending)

    def __getattr__(self, name):
        return lambda: self.said.append(name)


class PlayingTest(unittest.TestCase):
    def setUp(self):
        self.kept = mock.Mock()
        self.kept.keep.return_value = None

    def play(self, keys, answers=(), start=START, pages=1, notice=None, has_hints=True, early=()):
        """What the screen was told. The keys `early` are typed as soon as the run has written its start."""
        clock = Clock()
        events = FakeEvents(clock, keys)
        self.run_ = FakeRun(events, answers)
        self.screen = FakeScreen(clock, pages)
        self.progress, self.hints = mock.Mock(), mock.Mock(are_offered=has_hints)
        self.hints.after.return_value = "d wins."
        events.come(start)
        events.coming.extend(Event(Kind.KEY, key) for key in early)
        with mock.patch.object(playing, "time", clock):
            game = Game(Described(SAID), self.progress, notice, self.hints, self.kept)
            self.playing = Playing(self.run_, self.screen, events, game)
            self.playing.play()
        return self.screen.said

    def test_a_move_is_counted_before_its_frame(self):
        said = self.play([Key.RIGHT], [b".P.\n\n"])
        begun = [b"= T\n", b"# level 1\n", "~ of 3, 0 moves", b"P..\n\n"]
        self.assertEqual(said, begun + ["~ of 3, 1 move", b".P.\n\n", playing.BROKEN_OFF])

    def test_keys_that_are_handed_on(self):
        self.play([Key.RIGHT, Key.UNDO, Key.OTHER, Key.ENTER, Key.SPACE, Key.RESTART, Key.ACT], [b"P..\n\n"] * 3)
        self.assertEqual(self.run_.sent, b"drx")

    def test_quit_is_asked_once(self):
        said = self.play([Key.QUIT, Key.RIGHT, Key.QUIT, Key.QUIT], [b".P.\n\n", b"* quit\n"])
        self.assertEqual(self.run_.sent, b"dq")
        self.assertEqual(said.count(f"? {QUIT_QUESTION}"), 2)
        self.assertEqual(said.count("take_back"), 1)
        self.assertEqual(self.playing.ending, b"* quit\n")

    def test_a_message_is_left_by_enter(self):
        said = self.play([Key.RIGHT, Key.RIGHT, Key.ENTER], [b".P.\n\n! Hi\n"])
        self.assertEqual(self.run_.sent, b"dx")
        self.assertEqual(said[-2:], ["clear_news", playing.BROKEN_OFF])

    def test_pages_of_a_message(self):
        self.play([Key.ENTER, Key.SPACE, Key.ACT], [START], start=b"= T\n! Long\n", pages=3)
        self.assertEqual(self.run_.sent, b"x")

    def test_frames_are_paced(self):
        self.play([Key.RIGHT], [b"1\n\n2\n\n3\n\n"])
        first = self.screen.times[1]
        self.assertEqual(self.screen.times[1:], [first, round(first + 0.1, 2), round(first + 0.2, 2)])

    def test_a_won_board_stays(self):
        self.play([Key.RIGHT], [b"1\n\n* level 1 done\n# level 2\n2\n\n"])
        self.assertAlmostEqual(self.screen.times[2] - self.screen.times[1], 1.0)
        self.assertEqual(self.progress.reached.call_args_list, [mock.call(1), mock.call(2)])

    def test_a_game_that_was_won(self):
        for ending in (b"* won\n", b"* the end\n"):
            said = self.play([Key.RIGHT], [b"1\n\n* level 1 done\n" + ending])
            self.assertEqual(said[-1], ending)
            self.progress.won.assert_called_once()

    def test_help(self):
        said = self.play([Key.HELP])
        self.assertIn("  P  Player", said[-2])
        self.assertIn("  x  act", said[-2])
        self.assertNotIn("  z  undo", said[-2])
        self.assertIn("  h  say how the level goes on", said[-2])

    def test_a_hint_is_of_where_all_keys_lead(self):
        said = self.play([Key.RIGHT, Key.HINT], [b".P.\n\n"])
        self.assertIn("? d wins.", said)
        self.hints.after.assert_called_once_with(b"d", True, ["undo"])
        self.play([Key.RIGHT, Key.RIGHT, Key.HINT], [b".P.\n\n", b"* level 1 done\n# level 2\n2\n\n"])
        self.hints.after.assert_called_once_with(b"dd", False, ["undo"])

    def test_a_hint_counts_the_key_that_leaves_a_message(self):
        self.play([Key.RIGHT, Key.ENTER, Key.HINT], [b".P.\n\n! Hi\n"])
        self.hints.after.assert_called_once_with(b"dx", True, ["undo"])

    def test_a_hint_is_no_key_of_the_run(self):
        self.play([Key.HINT, Key.RIGHT, Key.HINT], [b".P.\n\n"])
        self.assertEqual(self.run_.sent, b"d")
        self.assertEqual([call.args[0] for call in self.hints.after.call_args_list], [b"", b"d"])

    def test_a_hint_takes_back_the_question_whether_to_quit(self):
        said = self.play([Key.QUIT, Key.HINT], [])
        self.assertEqual(said[-2], "? d wins.")
        self.assertEqual(self.run_.sent, b"")

    def test_no_hint_at_a_message_or_where_there_are_none(self):
        self.play([Key.RIGHT, Key.HINT], [b".P.\n\n! Hi\n"])
        self.hints.after.assert_not_called()
        said = self.play([Key.HINT, Key.HELP], has_hints=False)
        self.hints.after.assert_not_called()
        self.assertNotIn("  h  say how the level goes on", said[-2])

    def test_drawing_anew(self):
        said = self.play([Key.DRAW_ANEW, Event(Kind.DRAW, None), Event(Kind.STOP, None)])
        self.assertEqual(said[4:8], ["redraw", "redraw", playing.STOPPED, "redraw"])

    def test_a_notice_is_told_once(self):
        said = self.play([Key.RIGHT], [b".P.\n\n"], notice="You go on")
        self.assertEqual(said.count("? You go on"), 1)
        self.assertEqual(said[4], "? You go on")

    def test_a_notice_waits_for_a_message_and_a_question(self):
        said = self.play([Key.ENTER], [b"# level 1\nP..\n\n"], start=b"= T\n! Hi\n", notice="You go on")
        self.assertEqual(said[-2:], ["? You go on", playing.BROKEN_OFF])
        self.kept.keep.side_effect = [None, "No longer"]
        said = self.play([Key.RIGHT, Key.RIGHT, Key.QUIT, Key.LEFT], [b".P.\n\n", b"..P\n\n! Hi\n", b".P.\n\n"])
        self.assertNotIn("? No longer", said)

    def test_a_notice_waits_while_a_hint_stands(self):
        said = self.play([Key.RIGHT], [b".P.\n\n"], notice="You go on", early=[Key.HINT])
        self.assertEqual(said[4], "? d wins.")
        self.assertEqual(said[-2:], ["? You go on", playing.BROKEN_OFF])

    def test_keys_that_are_kept(self):
        """Just those that the run is handed and takes."""
        typed = [Key.RIGHT, Key.HELP, Key.HINT, Key.OTHER, Key.UNDO, Key.QUIT, Key.ACT]
        at_message = [Key.RESTART, Key.LEFT, Key.ENTER, Key.QUIT, Key.QUIT]
        self.play(typed + at_message, [b".P.\n\n", b".P.\n\n! Hi\n", b"P..\n\n", b"* quit\n"])
        self.assertEqual(self.run_.sent, b"dxxq")
        self.assertEqual([call.args[0] for call in self.kept.keep.call_args_list], [b"d", b"x", b"x", b"q"])

    def test_a_key_that_the_run_does_not_take_is_not_kept(self):
        with mock.patch.object(FakeRun, "has_ended", True):
            self.play([Key.RIGHT], [b""])
        self.assertEqual(self.run_.sent, b"d")
        self.kept.keep.assert_not_called()

    def test_it_is_told_where_keys_are_kept_no_longer(self):
        self.kept.keep.side_effect = [None, "No longer", None]
        said = self.play([Key.RIGHT, Key.RIGHT, Key.LEFT], [b".P.\n\n", b"..P\n\n", b".P.\n\n"])
        self.assertEqual(said.count("? No longer"), 1)
        self.assertEqual(said.index("? No longer"), said.index(b"..P\n\n") + 1)


if __name__ == "__main__":
    unittest.main()
