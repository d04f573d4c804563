"""A game that is played: keys go to a run of it, and what that writes goes to a screen."""
import collections
import time

import help_page
from events import Kind as Happened
from moves import MoveCount
from pacing import Pacing
from run_output import Kind, OutputReader, level_number
from typed_keys import Key

QUIT_QUESTION = "Quit? q again quits, any other key goes on."
STOPPED = b"* stopped\n"
BROKEN_OFF = b"* broken off\n"

# Seconds without output after which the run has nothing more to say: where it matters whether a message waits, and else.
_QUIET = 0.025
_QUIET_FOR_MOVES = 0.004
# An answer to a key is waited for so long before the next key is handed on.
_PATIENCE = 3.0

_GO_ON = (Key.ACT, Key.ENTER, Key.SPACE)
_CAREFUL = _GO_ON + (Key.QUIT, Key.HELP, Key.HINT)
_PLAYED = (Key.UP, Key.LEFT, Key.DOWN, Key.RIGHT, Key.ACT, Key.UNDO, Key.RESTART)
_NAMES = {"act": Key.ACT, "undo": Key.UNDO, "restart": Key.RESTART}
_WON = (b"* won", b"* the end")


# A game that is played: what the player says of it, its progress, what is told once below the first board, if anything is, what
# says how a level goes on, and what keeps its keys.
Game = collections.namedtuple("Game", "described progress notice hints recording")


class Playing:
    """Plays one game from its first output to its last."""

    def __init__(self, run, screen, events, game):
        self._run, self._screen, self._events = run, screen, events
        self._described, self._progress, self._notice, self._hints, self._recording = game
        self._ignored = [_NAMES[name] for name in self._described.ignored if name in _NAMES]
        self._reader, self._pacing, self._moves = OutputReader(), Pacing(), MoveCount()
        # The keys that the run was handed.
        self._keys = b""
        # What was read and isn't shown yet, and the keys that nobody obeyed yet.
        self._parts, self._typed = collections.deque(), collections.deque()
        # Whether the run owes an answer, and since when it has said and was told nothing.
        self._is_owed, self._since = True, time.monotonic()
        self._has_message = self._is_dismissed = self._is_asked = self._has_hint = False
        # The ending, once it is shown, and whether the run's output is at its end.
        self.ending, self._is_silent = b"", False

    def play(self):
        """Plays until the run is over."""
        self._events.output = self._run.output
        while not self.ending and (self._parts or not self._is_silent):
            now = time.monotonic()
            self._show_due(now)
            if not self.ending:
                self._obey_typed(now)
                self._say_in_quiet(now)
                self._take(self._events.next(self._deadline()))
        if not self.ending:
            self._screen.leave(BROKEN_OFF)
        self._events.output = None

    # What happens ---------------------------------------------------------------------------------------------------

    def _take(self, event):
        """Something happened."""
        if event.kind is Happened.OUTPUT:
            self._take_output(event.value)
        elif event.kind is Happened.STOP:
            self._screen.leave(STOPPED)
            self._events.stop()
            self._screen.redraw()
        elif event.kind is Happened.DRAW or event.value is Key.DRAW_ANEW:
            self._screen.redraw()
        elif event.kind is Happened.KEY:
            self._typed.append(event.value)

    def _take_output(self, data):
        """The run wrote something; or nothing, where it has ended."""
        if not data:
            self._is_silent, self._events.output = True, None
        parts = self._reader.feed(data)
        self._parts.extend(parts)
        self._since = time.monotonic()
        if parts:
            self._is_owed = self._is_dismissed = False

    def _deadline(self):
        """When something must be done though nothing happens, if there is something."""
        if self._parts:
            return self._due()
        if self._typed:
            return self._settled_at(self._typed[0])
        return self._settled_at(Key.ENTER) if self._is_dismissed or self._has_notice() else None

    # Output ---------------------------------------------------------------------------------------------------------

    def _due(self):
        """When the next part is shown, if it isn't shown at once."""
        return self._pacing.due(self._parts[0], bool(self._typed)) if self._screen.is_paced else None

    def _show_due(self, now):
        """Shows what is due."""
        while self._parts and not self.ending and (self._due() or now) <= now:
            if self._pacing.is_won_before(self._parts[0]):
                self._drop_keys()
            self._show(self._parts.popleft(), now)

    def _show(self, part, now):
        """Shows a part of the output."""
        if part.kind is Kind.ENDING:
            self._end(part)
            return
        if part.kind is Kind.FRAME:
            self._count(part.data)
        self._screen.show(part)
        if part.kind is Kind.LEVEL:
            self._begin_level(level_number(part.data))
        elif part.kind is Kind.DONE:
            self._drop_keys()
        self._has_message = part.kind is Kind.MESSAGE
        self._pacing.shown(part, now)

    def _begin_level(self, number):
        self._moves.level_begins()
        self._progress.reached(number)
        self._tell_moves()

    def _count(self, frame):
        """A frame comes, whose note says how many moves led to it."""
        before = self._moves.count
        self._moves.frame_comes(frame)
        if self._moves.count != before:
            self._tell_moves()

    def _tell_moves(self):
        self._screen.note(f"of {self._described.levels}, {self._moves.text()}")

    def _end(self, part):
        """The run says how it ends."""
        if part.data.startswith(_WON):
            self._progress.won()
        self._screen.leave(part.data)
        self.ending = part.data

    # Keys -----------------------------------------------------------------------------------------------------------

    def _drop_keys(self):
        """Keys that were typed before the next level is shown aren't played there."""
        self._typed.clear()
        self._events.drop_keys()

    def _settled_at(self, key):
        """From when on the run has said all that comes before a key."""
        if self._is_owed or self._reader.is_within():
            return self._since + _PATIENCE
        is_careful = key in _CAREFUL or self._is_asked or self._is_dismissed
        return self._since + (_QUIET if is_careful else _QUIET_FOR_MOVES)

    def _obey_typed(self, now):
        """Obeys the keys that were typed, one after the other, as far as the run keeps up."""
        while self._typed and not self._parts and self._settled_at(self._typed[0]) <= now:
            self._obey(self._typed.popleft())

    def _obey(self, key):
        """Does what a key is for."""
        if self._is_asked:
            self._is_asked = False
            if key is Key.QUIT:
                self._send(key)
                return
            self._screen.take_back()
        if key is Key.HELP:
            self._help()
        elif key is Key.HINT:
            self._hint()
        elif key is Key.QUIT:
            self._is_asked = True
            self._screen.ask(QUIT_QUESTION)
        elif self._has_message:
            if key in _GO_ON:
                self._go_on()
        elif key in _PLAYED and key not in self._ignored:
            self._send(key)

    def _send(self, key):
        """Hands a key to the run, which answers it."""
        self._moves.key_sent(key)
        self._pacing.key_sent()
        self._hand_on(key)
        self._is_owed, self._since = True, time.monotonic()

    def _hand_on(self, key):
        self._has_hint = False
        self._keys += key.value
        if self._run.send(key.value):
            self._notice = self._recording.keep(key.value) or self._notice

    def _go_on(self):
        """Leaves a page of a message. After the last one the run goes on, perhaps without saying anything."""
        if not self._screen.turn_page():
            self._has_message, self._is_dismissed = False, True
            self._moves.key_sent(None)
            self._pacing.key_sent()
            self._hand_on(Key.ACT)
            self._since = time.monotonic()

    def _say_in_quiet(self, now):
        """Where the run has nothing to say: a message that was left isn't shown any more, and the notice is told."""
        if self._parts or self._settled_at(Key.ENTER) > now:
            return
        if self._is_dismissed:
            self._is_dismissed = False
            self._screen.clear_news()
        if self._has_notice():
            self._screen.ask(self._notice)
            self._notice = None

    def _has_notice(self):
        """Whether a notice can be told: nothing else stands in its place, and no answer of the run is on its way."""
        return self._notice is not None and not (self._has_message or self._is_asked or self._has_hint or self._is_owed)

    def _help(self):
        """Shows what the glyphs and keys are. Meanwhile the run's output waits."""
        output, self._events.output = self._events.output, None
        lines = help_page.lines(self._described, self._ignored, self._hints.are_offered)
        self._screen.read(lines, self._events)
        self._events.output = output

    def _hint(self):
        """Says how the level goes on, where no message stands there."""
        if not self._has_message and self._hints.are_offered:
            self._screen.ask(self._hints.after(self._keys, self._moves.count > 0, self._described.ignored))
            self._has_hint = True
