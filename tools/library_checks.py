"""What else is checked of the library than its games: rooms, misuse, declarations, refused growths, examples."""
import ctypes
import pathlib
import re
import shutil
import subprocess
import sys

from crates import TOP
from library import HEADER, calls, version

PAGE = TOP / "docs/LIBRARY.md"
GAMES = TOP / "games"
# A byte that stands after an output, and must stay.
AFTER = 0xA5
# The game whose growths are refused, and how many of its keys are played.
GROWN, GROWN_KEYS = "moths", 3
DONE, REFUSED, MEMORY, NO_ROOM, TOO_MANY_KEYS, NO_LEVEL, CLOSED, NO_OBJECT = range(8)
# How many sessions are started and ended in a row, and the longest keys that are played one by one.
ROUNDS, MOST_BY_ONE = 300, 40
# What stands in front of the C library: it refuses growths, all from one on, and counts them and the blocks that aren't free.
REFUSING = r"""
#include <stddef.h>
long growths, from = -1, blocks;
void *__real_malloc(size_t size);
void *__real_realloc(void *block, size_t size);
void __real_free(void *block);
static int refused(void) { return from >= 0 && growths++ >= from; }
void *__wrap_malloc(size_t size) {
    void *made = refused() ? NULL : __real_malloc(size);
    blocks += made != NULL;
    return made;
}
void *__wrap_realloc(void *block, size_t size) { return refused() ? NULL : __real_realloc(block, size); }
void __wrap_free(void *block) { blocks -= block != NULL; __real_free(block); }
"""
LAYOUT = r"""
#include <stdio.h>
#include "lizhakoven.h"
int main(void) {
    printf("%d %d %d\n", LZK_VERSION_MAJOR, LZK_VERSION_MINOR, LZK_VERSION_PATCH);
    printf("%d %d %d %d %d ", LZK_DONE, LZK_REFUSED, LZK_MEMORY, LZK_NO_ROOM, LZK_TOO_MANY_KEYS);
    printf("%d %d %d\n", LZK_NO_LEVEL, LZK_CLOSED, LZK_NO_OBJECT);
    printf("%d %d %d %d %d %u\n", LZK_NO_PHASE, LZK_PLAYING, LZK_MESSAGE, LZK_OVER, LZK_HAS_QUIT, (unsigned)LZK_NOTHING);
    printf("%zu %zu %zu\n", sizeof(lzk_session), offsetof(lzk_session, is_open), sizeof(lzk_place));
    printf("%zu %zu\n", offsetof(lzk_place, layers), offsetof(lzk_place, level));
    printf("%zu %zu\n", sizeof(lzk_game), offsetof(lzk_game, is_open));
    printf("%d %d %d %d\n", LZK_NO_ENDING, LZK_THE_END, LZK_QUIT, LZK_END_OF_KEYS);
    printf("%zu %zu %zu\n", sizeof(lzk_finding), offsetof(lzk_finding, fault), offsetof(lzk_size, levels));
    printf("%zu %zu %zu\n", sizeof(lzk_outcome), offsetof(lzk_outcome, fault), sizeof(lzk_fault));
    return 0;
}
"""


def has_compiler():
    return shutil.which("cc") is not None


class Raw:
    """The calls of a library as C has them, with an output of which the byte after its room is watched."""

    def __init__(self, engine, library):
        self.engine, self.library = engine, library
        for name in calls():
            ours, theirs = getattr(library, name), getattr(engine._library, name)
            ours.restype, ours.argtypes = theirs.restype, theirs.argtypes

    def run(self, text, keys, room):
        """A run: its status, its outcome, and what it has written; nothing of that where another byte has changed."""
        output = ctypes.create_string_buffer(bytes([AFTER]) * (room + 1), room + 1)
        outcome = self.engine._Outcome(1, 99, self.engine._Fault(7, b"X" * 32))
        status = self.library.lzk_run(text, len(text), keys, len(keys), output, room, ctypes.byref(outcome))
        stays = all(byte == AFTER for byte in output.raw[outcome.length:])
        return status, outcome, output.raw[:outcome.length] if stays and outcome.length <= room else None


def is_blank(outcome):
    """Whether an outcome tells neither an ending nor a fault."""
    return outcome.ending == 0 and outcome.fault.line == 0 and bytes(outcome.fault.words) == b""


def wrong_rooms(raw):
    """What is wrong with runs whose room is too small, exact or larger."""
    for game in sorted(GAMES.glob("*.keys")):
        text, keys = game.with_suffix(".game").read_bytes(), game.read_bytes()
        wanted = raw.engine.run(text, keys).output
        for room in {0, 1, len(wanted) // 2, len(wanted) - 1}:
            status, outcome, written = raw.run(text, keys, room)
            if status != NO_ROOM or written != wanted[:room] or not is_blank(outcome):
                yield f"{game.stem}: with room for {room} bytes it comes to status {status}"
        for room in (len(wanted), len(wanted) + 1):
            status, outcome, written = raw.run(text, keys, room)
            if status != DONE or written != wanted or outcome.ending != 1 or outcome.fault.line:
                yield f"{game.stem}: with room for {room} bytes it comes to status {status}"


def frame_of(output, place):
    """The rows of the last frame of an output, where it shows the whole board of a place."""
    rows = output.decode(errors="replace").split("\n")
    for last in range(len(rows) - place.height, -1, -1):
        frame = rows[last:last + place.height]
        if all(len(row) == place.width for row in frame) and rows[last + place.height:last + place.height + 1] == [""]:
            return frame
    return None


def wrong_of_cells(place, output):
    """What is wrong with the cells of a place, by a run's last frame: cells with the same objects have the same character."""
    frame, shown = frame_of(output, place), {}
    for column in range(place.width if frame else 0):
        for row in range(place.height):
            if shown.setdefault(place.objects(column, row), frame[row][column]) != frame[row][column]:
                return "has other cells than its last frame"
    return None


def wrong_of_place(session, made):
    """What is wrong with where a session is, by a run on the same keys; or nothing."""
    place, phases = session.look(), {"THE_END": "OVER", "QUIT": "QUIT"}
    if phases.get(made.ending.name, place.phase.name) != place.phase.name or session.look() != place:
        return f"comes to {place.phase}, where a run comes to {made.ending}"
    if made.ending.name == "END_OF_KEYS" and place.phase.name in phases.values():
        return f"comes to {place.phase}, where a run goes on"
    levels = re.findall(rb"^# level (\d+)$", made.output, re.M)
    if place.phase.name == "PLAYING" and place.level != int(levels[-1]):
        return f"is in level {place.level}, and a run in level {int(levels[-1])}"
    return wrong_of_cells(place, made.output) if place.phase.name == "PLAYING" else None


def wrong_of_session(engine, text, keys):
    """What is wrong with a session that plays a game's keys from its first level, where the game begins with that; or nothing."""
    made = engine.run(text, keys)
    if not re.match(rb"= [^\n]*\n# level 1\n", made.output):
        return None
    with engine.start(text) as session:
        session.play(keys)
        if wrong := wrong_of_place(session, made):
            return wrong
        if session.text() != made.output.removesuffix(b"* end of keys\n") or session.text() != b"":
            return "writes something else than a run"
        place = session.look()
    return wrong_by_one(engine, text, keys, place, made) if len(keys) <= MOST_BY_ONE else None


def wrong_by_one(engine, text, keys, place, made):
    """What is wrong with a session that is given its keys one by one, and with copies that are made on the way; or nothing."""
    with engine.start(text) as one:
        halves, texts = [one.copy()], [one.text()]
        for at in range(len(keys)):
            one.play(keys[at:at + 1])
            if at % 3:
                one.look()
            halves.append(one.copy())
            texts.append(one.text())
        if one.look() != place or b"".join(texts) != made.output.removesuffix(b"* end of keys\n"):
            return "comes elsewhere key by key, or writes something else"
    for at, half in enumerate(halves):
        if at % 5 == 0 and (wrong := wrong_taken_back(engine, text, keys[:at], half.copy())):
            return wrong
        half.play(keys[at:at + 1])
        half.look()
        half = half.copy()
        half.play(keys[at + 1:])
        if half.look() != place or half.text() != b"".join(texts[at:]):
            return "comes elsewhere by a copy, or writes something else"
    return None


def wrong_taken_back(engine, text, keys, copy):
    """What is wrong with a copy of a session with these keys, from which keys are taken back that were played before; or nothing."""
    with engine.start(text) as wanted:
        for key in (b"d", b"z", b"zz", b"r", b"x", b"z"):
            copy.play(key)
            keys += key
        wanted.play(keys)
        if copy.look() != wanted.look():
            return "comes elsewhere where a copy takes back"
    for key in (b"z", b"a", b"z"):
        copy.play(key)
        keys += key
        with engine.start(text) as wanted:
            wanted.play(keys)
            if copy.look() != wanted.look():
                return "comes elsewhere where a copy takes back key by key"
    return None


def wrong_misuse(engine):
    """What is wrong with games and sessions that are misused."""
    text = (GAMES / f"{GROWN}.game").read_bytes()
    ended, game, levels = engine.start(text), engine.Game(text), engine.check(text).levels
    ended.end()
    ended.end()
    closed = [engine.Session().look, lambda: ended.play(b"d"), ended.look, ended.text, ended.copy]
    if not all(raises(ValueError, call) for call in closed):
        yield "a session that has ended may be played"
    for level in (0, -1, levels + 1, 1 << 70):
        if not raises(IndexError, engine.start, text, level) or not raises(IndexError, game.start, level):
            yield f"a session begins at level {level}"
    for given in (text.decode(), None, 5, [1, 2]):
        if not raises(TypeError, engine.Game, given) or not raises(TypeError, engine.start, given) \
                or not raises(TypeError, game.start().play, given):
            yield f"a text or keys may be of the type {type(given).__name__}"
    for given in ("1", True, None, 1.0):
        if not raises(TypeError, game.start, given) or not raises(TypeError, game.object_name, given):
            yield f"a level or an object may be of the type {type(given).__name__}"
    if not raises(engine.Refused, engine.Game, b"") or not raises(IndexError, game.start().look().objects, 99, 0):
        yield "a text that is no game, or a cell that isn't there, is answered for"
    if not all(raises(IndexError, game.object_name, number) for number in (-1, engine.check(text).objects, 1 << 32, 1 << 70)):
        yield "an object that isn't there has a name"
    session = game.start()
    game.close()
    game.close()
    if not raises(ValueError, game.start) or not raises(ValueError, game.object_name, 0) or session.look() != engine.start(text).look():
        yield "a game that is closed may be played, or its session can't go on"


def wrong_object_names(engine):
    """What is wrong with the names of objects in the games of the repository, where each object stands in a paragraph of its own."""
    for file in sorted(GAMES.glob("*.game")):
        text = file.read_text()
        lines = re.sub(r"^=+\n", "", text, flags=re.M)
        paragraphs = re.search(r"^OBJECTS\n(.*?)^(?:LEGEND|COLLISIONLAYERS)\n", lines, re.M | re.S)[1].strip().split("\n\n")
        wanted = [paragraph.split()[0] for paragraph in paragraphs]
        with engine.Game(text.encode()) as game:
            names = [game.object_name(number) for number in range(engine.check(text.encode()).objects)]
        if names != wanted:
            yield f"{file.name}: its objects are called {names}, and not {wanted}"


def raises(error, call, *given):
    """Whether a call raises that error."""
    try:
        call(*given)
    except error:
        return True
    return False


def wrong_calls(engine):
    """What is wrong with rooms, empty texts and wrong types."""
    raw = Raw(engine, engine._library)
    yield from wrong_rooms(raw)
    text = (GAMES / f"{GROWN}.game").read_bytes()
    status, outcome, written = raw.run(b"", b"", 0)
    if (status, outcome.ending, written) != (REFUSED, 0, b"") or str(outcome.fault.refused()) != "line 1: GM2 NoSection":
        yield f"an empty text comes to status {status}, {outcome.fault.refused()}"
    if not engine.run(text, b"").output.endswith(b"\n* end of keys\n"):
        yield "a run without keys doesn't say so"
    for given in (text, bytearray(text), memoryview(text)):
        if engine.check(given) != engine.check(text) or engine.run(given, bytearray(b"d")) != engine.run(text, b"d"):
            yield f"a text as {type(given).__name__} is another"
    for given in (text.decode(), None, 5, [1, 2], GAMES / f"{GROWN}.game"):
        kind = type(given).__name__
        if not raises(TypeError, engine.check, given) or not raises(TypeError, engine.run, given, b""):
            yield f"a text may be of the type {kind}"
        if not raises(TypeError, engine.run, text, given):
            yield f"keys may be of the type {kind}"
    if not raises(TypeError, engine.run, text) or not raises(TypeError, engine.check):
        yield "arguments may be left out"


def compiled_by_c(text, made, *words):
    """Compiles a text of C into a file. What the compiler complains of, or nothing."""
    source = made.with_suffix(".c")
    source.write_text(text)
    words = ["-std=c99", "-fPIC", "-Wall", "-Wextra", "-Werror", "-I", HEADER.parent, source, "-o", made, *words]
    return subprocess.run(["cc", *words], capture_output=True, text=True).stderr


def wrong_declarations(engine, room):
    """What the header, the module and the source say otherwise than one another."""
    if engine.version() != version() or engine.__version__ != ".".join(map(str, version())):
        yield f"the module is of version {engine.__version__}, the library of {engine.version()}"
    if not has_compiler():
        return
    if said := compiled_by_c(LAYOUT, room / "layout"):
        yield f"the header can't be compiled: {said}"
        return
    numbers = [tuple(map(int, line.split())) for line in subprocess.run([room / "layout"], stdout=subprocess.PIPE, text=True).stdout.splitlines()]
    finding, outcome, fault = engine._Finding, engine._Outcome, engine._Fault
    statuses = (engine._DONE, engine._REFUSED, engine._MEMORY, engine._NO_ROOM, engine._TOO_MANY_KEYS, engine._NO_LEVEL, engine._CLOSED,
                engine._NO_OBJECT)
    handle, place, game = engine._Handle, engine._Place, engine._GameHandle
    wanted = [version(), statuses, (0, *(phase.value for phase in engine.Phase), engine._NOTHING),
              (ctypes.sizeof(handle), handle.is_open.offset, ctypes.sizeof(place)), (place.layers.offset, place.level.offset),
              (ctypes.sizeof(game), game.is_open.offset),
              (0, *(ending.value for ending in engine.Ending)),
              (ctypes.sizeof(finding), finding.fault.offset, engine._Size.levels.offset),
              (ctypes.sizeof(outcome), outcome.fault.offset, ctypes.sizeof(fault))]
    yield from (f"the header says {told}, and the module {other}" for told, other in zip(numbers, wanted) if told != other)
    names = [["Done", "Refused", "Memory", "NoRoom", "TooManyKeys", "NoLevel", "Closed", "NoObject"], ["TheEnd", "Quit", "EndOfKeys"]]
    for file, listed in zip(("crates/lizhakoven/src/statuses.rt", "crates/ps_model/src/play.rt"), names):
        variants = re.findall(r"^    (\w+),$", (TOP / file).read_text(), re.M)
        if variants[-len(listed):] != listed:
            yield f"{file} has {variants}, where the header has {listed}"


def wrong_growths(engine, archive, room):
    """What is wrong with calls whose growths are refused."""
    if not has_compiler():
        return
    words = ["-shared", "-Wl,--whole-archive", archive, "-Wl,--no-whole-archive", "-Wl,--wrap=malloc,--wrap=realloc,--wrap=free"]
    if said := compiled_by_c(REFUSING, room / "refusing.so", *words):
        yield f"the archive can't be linked: {said}"
        return
    raw = Raw(engine, ctypes.CDLL(str(room / "refusing.so")))
    growths, first, blocks = (ctypes.c_long.in_dll(raw.library, name) for name in ("growths", "from", "blocks"))
    text, keys = (GAMES / f"{GROWN}.game").read_bytes(), (GAMES / f"{GROWN}.keys").read_bytes()[:GROWN_KEYS]
    wanted, most = engine.run(text, keys).output, 1 << 20
    for number in range(most):
        growths.value, first.value = 0, number
        status, outcome, written = raw.run(text, keys, len(wanted))
        if growths.value <= number:
            break
        if status != MEMORY or written is None or written == wanted or not wanted.startswith(written) or not is_blank(outcome):
            yield f"with growth {number} refused a run comes to status {status}"
        finding = engine._Finding()
        growths.value = 0
        if raw.library.lzk_check(text, len(text), ctypes.byref(finding)) not in (DONE, MEMORY):
            yield f"with growth {number} refused a check says otherwise than that it is out of memory"
    if (status, written) != (DONE, wanted):
        yield "a run without a refused growth does otherwise"
    if blocks.value:
        yield f"{blocks.value} blocks of memory aren't free after the calls"
    first.value = -1
    yield from wrong_held(engine, raw.library, text, keys)


class Held:
    """The calls on sessions as C has them, each with memory of which the rest is watched."""

    def __init__(self, engine, library, place, text):
        self.engine, self.library, self.wanted, self.text = engine, library, place, text
        self.room = len(place.cells) // 4

    def look(self, session, is_there=True):
        """The status of a look; another number where cells or place aren't as the status says. Whether the session is there isn't looked
        at where that is nothing."""
        cells, place = (ctypes.c_uint32 * self.room)(*[AFTER] * self.room), self.engine._Place(9, 9, 9, 9, 9)
        status = self.library.lzk_look(session, cells, self.room, place)
        if status != DONE:
            return status if all(cell == AFTER for cell in cells) and place.phase == 0 else -1
        return status if is_there is None or (bytes(cells) == self.wanted.cells) == is_there else -1

    def tell(self, session, first, room):
        """The status of a text from a byte on; another number where the output or its length aren't as the status says."""
        output, length = ctypes.create_string_buffer(bytes([AFTER]) * (room + 1), room + 1), ctypes.c_size_t(9)
        status, left = self.library.lzk_text(session, first, output, room, length), self.text[first:]
        told = output.raw == left + bytes([AFTER]) * (room + 1 - len(left)) if status == DONE else output.raw == bytes([AFTER]) * (room + 1)
        return status if told and length.value == (len(left) if status in (DONE, NO_ROOM) else 0) else -1


def is_refused_in_turn(library, call):
    """Makes a call again and again, each time with one growth more before they are refused, until it is done. Whether it came to nothing
    else than that it is out of memory."""
    growths, first = (ctypes.c_long.in_dll(library, name) for name in ("growths", "from"))
    for number in range(1 << 20):
        growths.value, first.value = 0, number
        status = call()
        first.value = -1
        if status != MEMORY:
            return status == DONE


def wrong_held(engine, library, text, keys):
    """What is wrong with a game and a session of which each growth is refused in turn, and with what their calls leave."""
    with engine.start(text) as own:
        own.play(keys)
        held = Held(engine, library, own.look(), own.text())
    game, session, copy, fault = engine._GameHandle(), engine._Handle(), engine._Handle(), engine._Fault()
    made = [lambda: library.lzk_open(text, len(text), game, fault), lambda: named(engine, library, game, 1, b"Tree"),
            lambda: library.lzk_start(game, 1, session), lambda: library.lzk_keys(session, keys, len(keys)),
            lambda: held.look(session), lambda: held.tell(session, 0, len(held.text)), lambda: library.lzk_copy(session, copy)]
    if not all(is_refused_in_turn(library, call) for call in made):
        yield "a call on a game or a session comes to something else than it is out of memory"
    if held.look(copy) != DONE or library.lzk_keys(copy, b"r", 1) != DONE or held.look(copy, False) != DONE or held.look(session) != DONE:
        yield "a copy isn't where its session is, or isn't apart from it"
    if library.lzk_start(game, 99, session) != NO_LEVEL or not session.is_open:
        yield "a start at no level ends a session"
    yield from wrong_rested(engine, library, game, text, keys)
    if library.lzk_open(b"", 0, game, fault) != REFUSED or fault.line != 1 or not game.is_open:
        yield "an opening of no game closes one"
    yield from wrong_held_rooms(held, session)
    yield from wrong_names(engine, library, game)
    yield from wrong_ends(held, game, session, copy)
    yield from wrong_rounds(library, text, game, session, fault)


def wrong_rested(engine, library, game, text, keys):
    """What is wrong with a session that goes on from where its last look left it, and with its copy, of which each growth is refused in
    turn. The copy plays a key more, or takes one back."""
    half = len(keys) // 2
    for last in (b"", b"a", b"z"):
        with engine.start(text) as own:
            own.play(keys + last)
            held = Held(engine, library, own.look(), own.text())
        session, copy = engine._Handle(), engine._Handle()
        made = [lambda: library.lzk_start(game, 1, session), lambda: library.lzk_keys(session, keys, half),
                lambda: held.look(session, None), lambda: library.lzk_keys(session, keys[half:], len(keys) - half),
                lambda: held.look(session, None), lambda: library.lzk_copy(session, copy),
                lambda: library.lzk_keys(copy, last, len(last)), lambda: held.look(copy), lambda: held.tell(copy, 0, len(held.text)),
                lambda: library.lzk_keys(session, last, len(last)), lambda: held.look(session)]
        if not all(is_refused_in_turn(library, call) for call in made):
            yield f"a session that goes on from its last look by {last} comes to something else than it is out of memory, or elsewhere"
        library.lzk_end(session)
        library.lzk_end(copy)


def wrong_ends(held, game, session, copy):
    """What is wrong with a game that is closed before its session ends, and with a session that has ended."""
    library = held.library
    library.lzk_close(game)
    library.lzk_close(game)
    if held.look(session) != DONE or library.lzk_start(game, 1, copy) != CLOSED or not copy.is_open or game.is_open:
        yield "a session doesn't go on after its game is closed, or the game does"
    library.lzk_end(session)
    closed = [library.lzk_keys(session, b"", 0), held.look(session), held.tell(session, 0, 9), library.lzk_copy(session, copy)]
    if session.is_open or set(closed) != {CLOSED}:
        yield "a session that has ended is open"
    library.lzk_end(copy)


def wrong_rounds(library, text, game, session, fault):
    """What is wrong with games and sessions that are opened and ended in a row, and with what memory is left after all calls."""
    for _ in range(ROUNDS):
        if library.lzk_open(text, len(text), game, fault) != DONE or library.lzk_start(game, 1, session) != DONE:
            yield "a game can't be opened again, or a session started"
        library.lzk_close(game)
        library.lzk_end(session)
    if blocks := ctypes.c_long.in_dll(library, "blocks").value:
        yield f"{blocks} blocks of memory aren't free after games and sessions"


def named(engine, library, game, number, wanted, room=9):
    """The status of a call for the name of an object; another number where name or length aren't as the status says."""
    name, length = ctypes.create_string_buffer(bytes([AFTER]) * (room + 1), room + 1), ctypes.c_size_t(9)
    status = library.lzk_object_name(game, number, name, room, length)
    told = wanted + bytes([AFTER]) * (room + 1 - len(wanted)) if status == DONE else bytes([AFTER]) * (room + 1)
    return status if name.raw == told and length.value == (len(wanted) if status in (DONE, NO_ROOM) else 0) else -1


def wrong_names(engine, library, game):
    """What is wrong with names that have too little room, or as much as they want, and with those of no object."""
    rooms = ((1, 3, NO_ROOM), (1, 0, NO_ROOM), (1, 4, DONE), (1, 5, DONE), (5, 9, NO_OBJECT), ((1 << 32) - 1, 9, NO_OBJECT))
    for number, room, wanted in rooms:
        if named(engine, library, game, number, b"Tree", room) != wanted:
            yield f"the name of object {number} isn't told as it must be with room for {room} bytes"


def wrong_held_rooms(held, session):
    """What is wrong with cells and texts that have too little room, or as much as they want, or more."""
    small, place = (ctypes.c_uint32 * held.room)(), held.engine._Place()
    if held.library.lzk_look(session, small, held.room - 1, place) != NO_ROOM or place.phase != 1 or any(small):
        yield "cells without room are told, or their place isn't"
    size = len(held.text)
    for first, room, wanted in ((0, size - 1, NO_ROOM), (0, 0, NO_ROOM), (5, size - 6, NO_ROOM), (0, size, DONE), (0, size + 9, DONE),
                                (5, size - 5, DONE), (size, 0, DONE), (size + 1, 3, DONE), ((1 << 64) - 1, 0, DONE)):
        if held.tell(session, first, room) != wanted:
            yield f"the text from byte {first} on isn't told as it must be with room for {room} bytes"


def blocks_of(kind):
    """The blocks of a kind of text on the page."""
    return re.findall(rf"^```{kind}\n(.*?)^```", PAGE.read_text(), re.M | re.S)


def version_said_by(script):
    """The version that a script tells, and how its player was built."""
    return subprocess.run([script, "--version"], capture_output=True, text=True).stdout


def wrong_installs(room):
    """What is wrong with what is put below a folder: the library by two words of ./play, and the player by one of them."""
    for word, has_player in (("--install", True), ("--library", False)):
        prefix = room / word.strip("-")
        done = subprocess.run([TOP / "play", word, prefix], capture_output=True, text=True)
        if done.returncode != 0:
            yield f"./play {word} fails: {done.stderr}"
            continue
        names = ("include/lizhakoven.h", "lib/liblizhakoven.a", "lib/liblizhakoven.so", "lib/pkgconfig/lizhakoven.pc")
        lacking = [name for name in names if not (prefix / name).exists()]
        if lacking or len([*prefix.glob("lib/python3*/site-packages/lizhakoven.py")]) != 1:
            yield f"./play {word} leaves out a part of the library: {' '.join(lacking) or 'the module'}"
        if (prefix / "bin/ps_play").exists() != has_player:
            yield f"./play {word} {'leaves out the player' if has_player else 'puts a player'}"
        elif has_player and version_said_by(prefix / "bin/play") != version_said_by(TOP / "play"):
            yield f"./play {word} puts a script that says otherwise how the player was built"


def wrong_examples(room):
    """What is wrong with the library as it is installed, and with the examples on its page."""
    prefix = room / "there"
    done = subprocess.run([TOP / "play", "--library", prefix], capture_output=True, text=True)
    if done.returncode != 0:
        yield f"the library can't be installed: {done.stderr}"
        return
    [module] = prefix.glob("lib/python3*/site-packages/lizhakoven.py")
    environment = {"PYTHONPATH": str(module.parent), "PATH": "/usr/bin:/bin", "LD_LIBRARY_PATH": str(prefix / "lib")}
    how = {"capture_output": True, "text": True, "env": environment, "cwd": TOP}
    texts, moths = blocks_of("text"), [GAMES / "moths.game", GAMES / "moths.keys"]
    programs = [([sys.executable, "-c", text], wanted) for text, wanted in zip(blocks_of("python"), texts)]
    package = prefix / "lib/pkgconfig/lizhakoven.pc"
    if f"-I{prefix}/include" not in package.read_text().replace("${includedir}", f"{prefix}/include"):
        yield "the file for pkg-config names another folder"
    output = (TOP / "crates/ps_cases/data/games/moths.stdout").read_text()
    given = [(moths, output), (moths[:1], texts[-1])]
    for number, (text, (words_of_program, wanted)) in enumerate(zip(blocks_of("c"), given) if has_compiler() else []):
        for words in (["-L", prefix / "lib", "-llizhakoven"], [prefix / "lib/liblizhakoven.a"]):
            made = room / f"example-{number}-{len(words)}"
            if said := compiled_by_c(text, made, *words):
                yield f"the example in C can't be compiled: {said}"
            else:
                programs.append(([made, *words_of_program], wanted))
    for program, wanted in programs:
        done = subprocess.run(program, **how)
        if (done.returncode, done.stdout) != (0, wanted):
            yield f"the example {pathlib.Path(program[0]).name} writes\n{done.stdout}{done.stderr}"
