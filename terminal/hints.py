"""What a search says to a player who asks how the level goes on."""
import re

# How many states the search keeps at most, and how many seconds a player waits for it.
STATES = 20_000
PATIENCE = 0.45

_WON = re.compile(rb"level \d+: won in ([\d,]+) keys?: ([wasdx])")
_NEVER = re.compile(rb"level \d+: can't be won ")
_UNKNOWN = re.compile(rb"level \d+: unknown: not in ([\d,]+ keys?) \(([\d,]+ states?)")


def _way_out(ignored):
    """How a player leaves a board that can't be won, if there is a key for that."""
    ways = [("undo", "z takes back"), ("restart", "r restarts")]
    known = [way for name, way in ways if name not in ignored]
    return f"; {known[0]}" if known else ""


def hint_of(line, is_begun, ignored):
    """The hint that a line on the level means. `is_begun` says whether moves were made in the level already."""
    if line is None:
        return "No win was found in half a second."
    won = _WON.match(line)
    if won:
        count, key = won[1].decode(), won[2].decode()
        return f"Press {key} to win." if count == "1" else f"Press {key}: a win is {count} keys away."
    if _NEVER.match(line):
        return f"Nothing wins from here{_way_out(ignored)}." if is_begun else "Nothing wins this level."
    unknown = _UNKNOWN.match(line)
    if unknown:
        return f"No win was found in {unknown[2].decode()}: none is within {unknown[1].decode()}."
    return "No hint can be had here."


class Hints:
    """Asks the player how a run goes on, of the game of a path. The run began at its start, or at a level."""

    def __init__(self, player, game, level=None):
        self._player = player
        self._game = game
        self._level = level

    @property
    def are_offered(self):
        """Whether the player can say it."""
        return self._player.knows("--after")

    def after(self, keys, is_begun, ignored):
        """The hint after these keys of the run, in words."""
        line = self._player.solve_after(self._game, self._level, keys, STATES, PATIENCE)
        return hint_of(line, is_begun, ignored)
