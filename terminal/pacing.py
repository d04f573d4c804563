"""When each part of an output is shown, so that a board is seen before another one takes its place."""
from run_output import Kind

# Seconds that a frame stays before the next one of the same key.
FRAME_STAYS = 0.1
# Seconds that a won board stays, and how many of them it stays whatever is typed.
WON_STAYS = 1.0
WON_STAYS_LEAST = 0.3


class Pacing:
    """Knows which frame was shown last, and what may take its place when."""

    def __init__(self):
        self._framed = None
        self._is_won = False

    def key_sent(self):
        """A key was handed to the player: its first frame comes at once."""
        self._framed = None

    def shown(self, part, now):
        """A part was shown at that time."""
        if part.kind is Kind.FRAME:
            self._framed = now
        elif part.kind is Kind.DONE:
            self._is_won = self._framed is not None
        elif part.kind is not Kind.TITLE:
            self._is_won = False

    def is_won_before(self, part):
        """Whether a won board is seen as long as this part isn't shown."""
        return self._is_won and part.kind is Kind.LEVEL

    def due(self, part, is_typed):
        """The time when a part is shown; None for at once. Whether a key is typed shortens the wait."""
        if self.is_won_before(part):
            return self._framed + (WON_STAYS_LEAST if is_typed else WON_STAYS)
        if part.kind is Kind.FRAME and self._framed is not None and not is_typed:
            return self._framed + FRAME_STAYS
        return None
