"""What is played at a terminal in one call: a game, or those of a folder, one after the other."""
from console import Console
from events import Events, Kind
from game_list import GameList
from game_text import GameText
from given_glyphs import with_glyphs
from harmless import decoded, harmless_lines, name_text
from hints import Hints
from plain_screen import PlainScreen
from player import Fault, Player, Run
from playing import BROKEN_OFF, Game, Playing
from progress import Progress
from recording import Recording
from signals import Killed, Signals
from view_screen import ViewScreen
from widths import folded

INTERRUPTED = b"* interrupted\n"
_QUIT = b"* quit"
_BACK = "Any key leads back to the list."
_HELP = "h gives a hint, ? lists signs and keys."


class Sitting:
    """The player, the terminal and what is asked for."""

    def __init__(self, asked, keys, screen):
        self.asked = asked
        self.player = Player(asked.player)
        self.console = Console(keys, screen)
        self.signals = Signals()
        self.events = Events(self.console, self.signals)
        self.recording = Recording()

    def play_game(self):
        """Plays the game that is asked for. Its status, and what it said on standard error."""
        with GameText(self.asked.game) as text:
            described = self._described(text)
            self.recording = Recording(self.asked.record)
            self._begin()
            with_keys = True
            try:
                status, said, ending = self._play(text, described)
                with_keys = ending.startswith(_QUIT)
            finally:
                self.console.give_back(with_keys)
            return status or int(self.recording.trouble is not None), said

    def play_folder(self):
        """Plays the games that are chosen, until the list is left."""
        games = GameList(self.asked.game, self.player)
        self._begin()
        try:
            while True:
                path = self._chosen(games)
                if path is None:
                    return 0, b""
                self._play_chosen(path)
        finally:
            self.console.give_back()

    def _described(self, text):
        """What the player says of a game. On a screen each object has a glyph then, as far as its name has letters left."""
        described = self.player.describe(text.path)
        return described if self.asked.is_plain else with_glyphs(self.player, text, described)

    def _begin(self):
        """From now on keys come as they are pressed, and signals are told with them."""
        self.signals.catch()
        self.console.take()

    def _chosen(self, games):
        """The path of the game that is chosen, on a clear screen; None where the list is left."""
        try:
            return games.choose(self.console, self.events)
        finally:
            self.console.leave_page()

    def _play_chosen(self, path):
        """Plays a game of the list; what it says on standard error stands below the board until a key comes."""
        try:
            with GameText(path) as text:
                said = self._play(text, self._described(text))[1]
        except Fault as fault:
            said = fault.said
        except OSError as error:
            said = f"cannot read game: {error.strerror}\n".encode()
        self.events.drop_keys()
        self.console.write(folded(harmless_lines(decoded(said)), self.console.size()[1]) + _BACK)
        try:
            self._await_key()
        finally:
            self.console.write("\r\n")

    def _await_key(self):
        """Waits for any key."""
        kind = None
        while kind is not Kind.KEY:
            kind = self.events.next().kind
            if kind is Kind.STOP:
                self.events.stop()

    def _level(self, described, progress):
        """The level at which a game begins, if it is told to the player, and what the screen says of that."""
        if self.asked.level is not None:
            return self.asked.level, None
        if self.asked.record is not None:
            return None, f"You play from the start, and your keys are kept in {name_text(self.asked.record)}."
        level = progress.level(described.levels)
        if self.asked.is_fresh or not self.player.knows("--level"):
            return None, None
        if level == 1:
            return None, _HELP
        return level, f"You go on at level {level}; --fresh begins at the first."

    def _play(self, text, described):
        """Plays a game. Its status, what it said on standard error, and the line that it ended with."""
        progress = Progress(text.digest)
        level, notice = self._level(described, progress)
        run = Run(self.player, text.path, level, self.asked.is_traced)
        screen = PlainScreen(self.console) if self.asked.is_plain else ViewScreen(self.console, self.player, text.path)
        hints = Hints(self.player, text.path, level)
        playing = Playing(run, screen, self.events, Game(described, progress, notice, hints, self.recording))
        try:
            playing.play()
        except BaseException as stopped:
            run.kill()
            self.events.output = None
            screen.leave(INTERRUPTED if isinstance(stopped, Killed) else BROKEN_OFF)
            raise
        finally:
            self.recording.end(run.unread())
        return (*run.end(), playing.ending)
