"""Checks texts of PuzzleScript games and plays them with keys, at once or in sessions, by the shared library of Lizhakoven.

    >>> import lizhakoven
    >>> text = open("games/moths.game", "rb").read()
    >>> lizhakoven.check(text)
    Size(objects=5, layers=3, rules=2, levels=2)
    >>> print(lizhakoven.run(text, b"d").output.decode(), end="")
    >>> game = lizhakoven.Game(text)
    >>> session = game.start(level=2)
    >>> session.play(b"d")
    >>> session.look().phase
    <Phase.PLAYING: 1>
    >>> print(session.text().decode(), end="")

Texts, keys and outputs are bytes. Nothing is kept between calls but games and sessions. Calls may be made by several threads at once, and
other threads run meanwhile; a game, its sessions and their copies are used by one thread at a time.

The library is the first of these that is there: the file that the variable LIZHAKOVEN_LIBRARY names; liblizhakoven.so where
`./play --library` puts it, beside the folder of this module; the one that tools/build_library builds in a checkout; the one that
the system's loader finds.
"""
import ctypes
import enum
import os
import pathlib
from typing import NamedTuple

__all__ = ["Ending", "Game", "Phase", "Place", "Refused", "Run", "Session", "Size", "check", "run", "start", "version"]
__version__ = "0.3.0"

_DONE, _REFUSED, _MEMORY, _NO_ROOM, _TOO_MANY_KEYS, _NO_LEVEL, _CLOSED, _NO_OBJECT = range(8)
_WORDS_ROOM = 32
# How much room a run gets first, whatever its keys, and for each byte of them; and by how much more where that is too little.
_LEAST_ROOM, _ROOM_OF_A_KEY, _MORE = 1 << 16, 64, 4
# How many numbers of cells a session has room for first, and what stands in a cell where a layer is bare.
_FIRST_CELLS, _NOTHING = 1 << 10, (1 << 32) - 1
# How many bytes a session's text and the name of an object have room for first.
_FIRST_TEXT, _FIRST_NAME = 1 << 12, 1 << 6


class Refused(Exception):
    """A text is no game. It has the first fault of the text: `line`, counted from 1, and of its cause `code`, as "RU7", and `name`, as
    "Unbound"."""

    def __init__(self, line: int, code: str, name: str):
        super().__init__(line, code, name)
        self.line, self.code, self.name = line, code, name

    def __str__(self) -> str:
        return f"line {self.line}: {self.code} {self.name}"


class Ending(enum.Enum):
    """How a run ended: the game was over, the player quit, or the keys ended before the game."""

    THE_END = 1
    QUIT = 2
    END_OF_KEYS = 3


class Size(NamedTuple):
    """How large a game is. Starts and ends of loops aren't counted as rules, nor messages as levels."""

    objects: int
    layers: int
    rules: int
    levels: int


class Run(NamedTuple):
    """A whole run: its output, and how it ended."""

    output: bytes
    ending: Ending


class Phase(enum.Enum):
    """Where a session is: in a level, at a message, after the end of the game, or after the player quit."""

    PLAYING = 1
    MESSAGE = 2
    OVER = 3
    QUIT = 4


class Place(NamedTuple):
    """Where a session is. In a level, also where a message waits there, its number and its size are told; elsewhere these are 0, and
    no cell is told.

    `cells` are bytes, equal for equal boards. `objects` says what stands in a cell."""

    phase: Phase
    level: int
    width: int
    height: int
    layers: int
    cells: bytes

    def objects(self, column: int, row: int) -> tuple[int, ...]:
        """The numbers of the objects in a cell, the lowest layer first: from 0 in the order of OBJECTS.

        Raises IndexError where the level has no such cell.
        """
        if not (0 <= column < self.width and 0 <= row < self.height):
            raise IndexError("there is no such cell")
        first = (column * self.height + row) * self.layers
        numbers = memoryview(self.cells).cast("I")[first:first + self.layers]
        return tuple(number for number in numbers if number != _NOTHING)


class _Fault(ctypes.Structure):
    _fields_ = [("line", ctypes.c_uint32), ("words", ctypes.c_char * _WORDS_ROOM)]

    def refused(self) -> Refused:
        return Refused(self.line, *self.words.decode("ascii").split(" ", 1))


class _Size(ctypes.Structure):
    _fields_ = [("objects", ctypes.c_uint32), ("layers", ctypes.c_uint32), ("rules", ctypes.c_size_t), ("levels", ctypes.c_size_t)]


class _Finding(ctypes.Structure):
    _fields_ = [("size", _Size), ("fault", _Fault)]


class _Outcome(ctypes.Structure):
    _fields_ = [("length", ctypes.c_size_t), ("ending", ctypes.c_uint32), ("fault", _Fault)]


class _Place(ctypes.Structure):
    _fields_ = [("phase", ctypes.c_uint32), ("width", ctypes.c_uint32), ("height", ctypes.c_uint32), ("layers", ctypes.c_uint32),
                ("level", ctypes.c_size_t)]


class _GameHandle(ctypes.Structure):
    _fields_ = [("at", ctypes.c_void_p), ("is_open", ctypes.c_bool)]


class _Handle(ctypes.Structure):
    _fields_ = [("at", ctypes.c_void_p), ("is_open", ctypes.c_bool)]


def _opened() -> ctypes.CDLL:
    """The library, with the types of its calls."""
    here, named = pathlib.Path(__file__).resolve(), os.environ.get("LIZHAKOVEN_LIBRARY")
    beside = [folder / "liblizhakoven.so" for folder in here.parents[2:3]]
    places = [*beside, here.parent.parent / "crates/lizhakoven/out/library/liblizhakoven.so"]
    file = named or next((str(place) for place in places if place.is_file()), "liblizhakoven.so")
    try:
        library = ctypes.CDLL(file)
    except OSError as error:
        raise ImportError(f"the library of Lizhakoven can't be loaded: {error}", name=__name__) from error
    number, pointer, bytes_of, length = ctypes.c_uint32, ctypes.POINTER, ctypes.c_char_p, ctypes.c_size_t
    library.lzk_version.restype, library.lzk_version.argtypes = None, [pointer(number)] * 3
    library.lzk_check.restype, library.lzk_check.argtypes = number, [bytes_of, length, pointer(_Finding)]
    library.lzk_run.restype = number
    library.lzk_run.argtypes = [bytes_of, length, bytes_of, length, ctypes.c_void_p, length, pointer(_Outcome)]
    library.lzk_open.restype, library.lzk_open.argtypes = number, [bytes_of, length, pointer(_GameHandle), pointer(_Fault)]
    library.lzk_object_name.restype = number
    library.lzk_object_name.argtypes = [pointer(_GameHandle), number, ctypes.c_void_p, length, pointer(length)]
    library.lzk_close.restype, library.lzk_close.argtypes = None, [pointer(_GameHandle)]
    library.lzk_start.restype, library.lzk_start.argtypes = number, [pointer(_GameHandle), length, pointer(_Handle)]
    library.lzk_copy.restype, library.lzk_copy.argtypes = number, [pointer(_Handle)] * 2
    library.lzk_keys.restype, library.lzk_keys.argtypes = number, [pointer(_Handle), bytes_of, length]
    library.lzk_look.restype, library.lzk_look.argtypes = number, [pointer(_Handle), ctypes.c_void_p, length, pointer(_Place)]
    library.lzk_text.restype = number
    library.lzk_text.argtypes = [pointer(_Handle), length, ctypes.c_void_p, length, pointer(length)]
    library.lzk_end.restype, library.lzk_end.argtypes = None, [pointer(_Handle)]
    return library


_library = _opened()


def version() -> tuple[int, int, int]:
    """The version of the library, as (0, 3, 0)."""
    numbers = [ctypes.c_uint32() for _ in range(3)]
    _library.lzk_version(*map(ctypes.byref, numbers))
    return tuple(number.value for number in numbers)


def _bytes_of(what: str, given) -> bytes:
    """What was given as bytes that nobody changes."""
    if not isinstance(given, (bytes, bytearray, memoryview)):
        raise TypeError(f"{what} must be bytes, not {type(given).__name__}")
    return bytes(given)


def _number_of(what: str, given) -> int:
    """What was given as a number."""
    if not isinstance(given, int) or isinstance(given, bool):
        raise TypeError(f"{what} must be a number, not {type(given).__name__}")
    return given


def check(text: bytes) -> Size:
    """Answers how large the game of a text is.

    Raises Refused where the text is no game, MemoryError out of memory, and TypeError where it isn't bytes.
    """
    text = _bytes_of("a text", text)
    finding = _Finding()
    status = _library.lzk_check(text, len(text), ctypes.byref(finding))
    if status == _REFUSED:
        raise finding.fault.refused()
    if status != _DONE:
        raise MemoryError("out of memory")
    size = finding.size
    return Size(size.objects, size.layers, size.rules, size.levels)


def run(text: bytes, keys: bytes) -> Run:
    """Plays the game of a text with keys, to the end of the game or of the keys, and answers the whole output.

    It gives the library some room for the output, and plays anew with four times as much where that was too little. A game made for
    it can keep it busy for hours.

    Raises Refused where the text is no game, MemoryError out of memory, ValueError where there are more keys than a run reads, which is
    64 GiB of them, and TypeError where text or keys aren't bytes.
    """
    text, keys = _bytes_of("a text", text), _bytes_of("keys", keys)
    room, status = _LEAST_ROOM + _ROOM_OF_A_KEY * len(keys), _NO_ROOM
    while status == _NO_ROOM:
        output, outcome = ctypes.create_string_buffer(room), _Outcome()
        status = _library.lzk_run(text, len(text), keys, len(keys), output, room, ctypes.byref(outcome))
        room *= _MORE
    if status == _REFUSED:
        raise outcome.fault.refused()
    if status == _TOO_MANY_KEYS:
        raise ValueError("there are more keys than a run reads")
    if status != _DONE:
        raise MemoryError("out of memory")
    return Run(ctypes.string_at(output, outcome.length), Ending(outcome.ending))


class Game:
    """The game of a text, which is read once for all sessions that are started in it. It is closed by `close`, by the end of a `with`, or
    once nobody has it any more; its sessions go on.

    Raises Refused where the text is no game, MemoryError out of memory, and TypeError where it isn't bytes.
    """

    def __init__(self, text: bytes):
        text, fault = _bytes_of("a text", text), _Fault()
        self._handle, self._close = _GameHandle(), _library.lzk_close
        status = _library.lzk_open(text, len(text), self._handle, fault)
        if status == _REFUSED:
            raise fault.refused()
        _answered(status)

    def __enter__(self) -> "Game":
        return self

    def __exit__(self, *_) -> None:
        self.close()

    def __del__(self):
        if hasattr(self, "_close"):
            self.close()

    def start(self, level: int = 1) -> "Session":
        """Starts a session at a level. Levels alone are counted, from 1.

        Raises IndexError where the game has no such level, ValueError where it is closed, MemoryError out of memory, and TypeError where
        the level is no number.
        """
        level, session = _number_of("a level", level), Session()
        status = _library.lzk_start(self._handle, level if 0 < level < 1 << 32 else 0, session._handle)
        if status == _NO_LEVEL:
            raise IndexError("the game has no such level")
        _answered(status, "the game is closed")
        return session

    def object_name(self, number: int) -> str:
        """Answers how an object is called, as the text writes it. Objects are numbered from 0, in the order of OBJECTS.

        Raises IndexError where the game has no object of that number, ValueError where it is closed, MemoryError out of memory, and
        TypeError where the number is none.
        """
        number = _number_of("an object", number)
        number = number if 0 <= number < _NOTHING else _NOTHING
        length, room, status = ctypes.c_size_t(), _FIRST_NAME, _NO_ROOM
        while status == _NO_ROOM:
            name = ctypes.create_string_buffer(room)
            status = _library.lzk_object_name(self._handle, number, name, room, length)
            room = length.value
        if status == _NO_OBJECT:
            raise IndexError("the game has no object of that number")
        _answered(status, "the game is closed")
        return ctypes.string_at(name, length.value).decode()

    def close(self) -> None:
        """Closes the game. What is closed stays so."""
        self._close(self._handle)


class Session:
    """A session, which is given keys one after the other. It is made by `start` or `copy`, and ended by `end`, by the end of a `with`, or
    once nobody has it any more.

    It keeps its keys, and where they led at the last look. `look` plays those that are new; `text` plays all of them, which takes about a
    microsecond a key. Whatever a call raises, the session is as before, and the same may be asked again.
    """

    def __init__(self):
        """A session that isn't open: `start` makes one that is."""
        self._handle, self._end, self._told = _Handle(), _library.lzk_end, 0
        self._cells = ctypes.create_string_buffer(4 * _FIRST_CELLS)

    def __enter__(self) -> "Session":
        return self

    def __exit__(self, *_) -> None:
        self.end()

    def __del__(self):
        if hasattr(self, "_end"):
            self.end()

    def play(self, keys: bytes) -> None:
        """Gives keys, which come after those before. An arrow of three bytes may come in parts.

        Raises ValueError where the session has ended, MemoryError out of memory, and TypeError where the keys aren't bytes.
        """
        keys = _bytes_of("keys", keys)
        _answered(_library.lzk_keys(self._handle, keys, len(keys)))

    def look(self) -> Place:
        """Answers where the session is: where its keys lead.

        Raises ValueError where it has ended, and MemoryError out of memory.
        """
        place = _Place()
        status = _library.lzk_look(self._handle, self._cells, len(self._cells) // 4, place)
        if status == _NO_ROOM:
            self._cells = ctypes.create_string_buffer(4 * place.width * place.height * place.layers)
            status = _library.lzk_look(self._handle, self._cells, len(self._cells) // 4, place)
        _answered(status)
        cells = ctypes.string_at(self._cells, 4 * place.width * place.height * place.layers)
        return Place(Phase(place.phase), place.level, place.width, place.height, place.layers, cells)

    def text(self) -> bytes:
        """Answers what the session has written since the last call, or since its start: its opening, frames, messages and other lines.

        Raises ValueError where the session has ended, and MemoryError out of memory.
        """
        length, room, status = ctypes.c_size_t(), _FIRST_TEXT, _NO_ROOM
        while status == _NO_ROOM:
            output = ctypes.create_string_buffer(room)
            status = _library.lzk_text(self._handle, self._told, output, room, length)
            room = length.value
        _answered(status)
        self._told += length.value
        return ctypes.string_at(output, length.value)

    def copy(self) -> "Session":
        """Answers another session that is where this one is, and has told as much. From then on each of the two goes its own way.

        Raises ValueError where the session has ended, and MemoryError out of memory.
        """
        copy = Session()
        _answered(_library.lzk_copy(self._handle, copy._handle))
        copy._told = self._told
        return copy

    def end(self) -> None:
        """Ends the session. What has ended stays so."""
        self._end(self._handle)


def _answered(status: int, closed: str = "the session has ended") -> None:
    """Raises what the status of a call on a game or a session is raised as, unless it is done."""
    if status == _CLOSED:
        raise ValueError(closed)
    if status != _DONE:
        raise MemoryError("out of memory")


def start(text: bytes, level: int = 1) -> Session:
    """Starts a session at a level of the game of a text. Levels alone are counted, from 1. Who starts several takes a Game.

    Raises Refused where the text is no game, IndexError where it has no such level, MemoryError out of memory, and TypeError where the
    text isn't bytes or the level no number.
    """
    with Game(text) as game:
        return game.start(level)


if version()[:2] != tuple(map(int, __version__.split(".")))[:2]:
    raise ImportError(f"this module is of version {__version__}, and the library of {'.'.join(map(str, version()))}", name=__name__)
