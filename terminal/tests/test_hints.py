"""What a search says, in words for a player."""
import unittest
from unittest import mock

from hints import PATIENCE, STATES, Hints, hint_of


class HintTest(unittest.TestCase):
    def test_the_next_key_of_a_win(self):
        self.assertEqual(hint_of(b"level 2: won in 12 keys: dwwa\n", True, []), "Press d: a win is 12 keys away.")
        self.assertEqual(hint_of(b"level 2: won in 1,204 keys: wwa\n", True, []), "Press w: a win is 1,204 keys away.")
        self.assertEqual(hint_of(b"level 2: won in 1 key: x\n", False, []), "Press x to win.")

    def test_nothing_wins(self):
        lost = b"level 1: can't be won (12 states)\n"
        self.assertEqual(hint_of(lost, True, []), "Nothing wins from here; z takes back.")
        self.assertEqual(hint_of(lost, True, ["undo"]), "Nothing wins from here; r restarts.")
        self.assertEqual(hint_of(lost, True, ["undo", "restart"]), "Nothing wins from here.")
        self.assertEqual(hint_of(lost, False, []), "Nothing wins this level.")

    def test_no_win_is_known(self):
        far = b"level 1: unknown: not in 31 keys (20,000 states)\n"
        self.assertEqual(hint_of(far, True, []), "No win was found in 20,000 states: none is within 31 keys.")
        self.assertEqual(hint_of(None, True, []), "No win was found in half a second.")
        self.assertEqual(hint_of(b"", True, []), "No hint can be had here.")

    def test_the_player_is_asked(self):
        player = mock.Mock()
        player.solve_after.return_value = b"level 3: won in 2 keys: xd\n"
        hints = Hints(player, "a.game", 3)
        self.assertEqual(hints.after(b"dd", True, []), "Press x: a win is 2 keys away.")
        player.solve_after.assert_called_once_with("a.game", 3, b"dd", STATES, PATIENCE)

    def test_a_player_that_knows_no_keys_before_a_search_has_no_hints(self):
        player = mock.Mock()
        player.knows.side_effect = lambda option: option == "--level"
        self.assertFalse(Hints(player, "a.game").are_offered)


if __name__ == "__main__":
    unittest.main()
