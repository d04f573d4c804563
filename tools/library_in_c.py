"""What is checked of the library by a program in C: the games of the gate, and the memory that it takes, reads and gives back."""
import os
import shutil
import subprocess

from crates import TOP
from library import HEADER
from wanted_games import of_gate

GAMES = TOP / "games"
# The games that are played by a program in C, and how many of their keys valgrind plays, which takes thirty times as long.
PLAYED, FEW_KEYS = ["moths", "mole", "watch"], 6
# How often a game is opened and closed in a row, and by how much memory may grow meanwhile: by what the C library keeps for itself.
ROUNDS, MOST_GROWN = 20000, 1 << 20
# Makes all calls on a game, with memory of just the size that each wants, and ends sessions and their game in either order. With a number
# after the game and its keys it opens and closes the game as often as that, and says by how many bytes the process has grown. Without words
# it plays the games that lines of standard input name, each with its keys and its output, at once and key by key.
PROGRAM = r"""
#include <lizhakoven.h>
#include <stdio.h>
#include <stdlib.h>
#include <string.h>
#include <unistd.h>

#define MUST(call, status) do { if ((call) != (status)) { printf("line %d: another status\n", __LINE__); exit(1); } } while (0)

static void *room_for(size_t size) {
    void *made = malloc(size ? size : 1);
    if (!made) exit(1);
    return made;
}

static uint8_t *bytes_of(const char *name, size_t *length) {
    FILE *file = fopen(name, "rb");
    if (!file || fseek(file, 0, SEEK_END)) exit(1);
    *length = (size_t)ftell(file);
    rewind(file);
    uint8_t *bytes = room_for(*length);
    if (fread(bytes, 1, *length, file) != *length) exit(1);
    fclose(file);
    return bytes;
}

static void run_whole(const uint8_t *text, size_t text_length, const uint8_t *keys, size_t keys_length) {
    lzk_outcome outcome;
    size_t room = 1;
    uint8_t *output = room_for(room);
    while (lzk_run(text, text_length, keys, keys_length, output, room, &outcome) == LZK_NO_ROOM) {
        free(output);
        output = room_for(room *= 4);
    }
    free(output);
    output = room_for(outcome.length);
    MUST(lzk_run(text, text_length, keys, keys_length, output, outcome.length, &outcome), LZK_DONE);
    free(output);
}

static void name_all(lzk_game *game, uint32_t objects) {
    for (uint32_t object = 0; object < objects; object++) {
        size_t length;
        uint8_t *name = room_for(0);
        MUST(lzk_object_name(game, object, name, 0, &length), LZK_NO_ROOM);
        free(name);
        name = room_for(length);
        MUST(lzk_object_name(game, object, name, length, &length), LZK_DONE);
        free(name);
    }
}

static void look_around(lzk_session *session) {
    lzk_place place;
    size_t length, count;
    uint32_t *cells = room_for(0);
    lzk_look(session, cells, 0, &place);
    free(cells);
    count = (size_t)place.width * place.height * place.layers;
    cells = room_for(count * sizeof *cells);
    MUST(lzk_look(session, cells, count, &place), LZK_DONE);
    for (uint32_t column = 0; column < place.width; column++)
        if (lzk_cell(cells, &place, column, place.height - 1) + place.layers > cells + count) exit(1);
    free(cells);
    uint8_t *text = room_for(0);
    MUST(lzk_text(session, 0, text, 0, &length), LZK_NO_ROOM);
    free(text);
    text = room_for(length);
    MUST(lzk_text(session, 0, text, length, &length), LZK_DONE);
    free(text);
}

static void play_levels(const uint8_t *text, size_t text_length, const uint8_t *keys, size_t keys_length) {
    lzk_finding finding;
    lzk_fault fault;
    MUST(lzk_check(text, text_length, &finding), LZK_DONE);
    for (size_t level = 1; level <= finding.size.levels; level++) {
        lzk_game game = LZK_NO_GAME;
        lzk_session session = LZK_NO_SESSION, copy = LZK_NO_SESSION, further = LZK_NO_SESSION;
        MUST(lzk_open(text, text_length, &game, &fault), LZK_DONE);
        if (level == 1) name_all(&game, finding.size.objects);
        MUST(lzk_start(&game, level, &session), LZK_DONE);
        if (level % 2) lzk_close(&game);
        MUST(lzk_keys(&session, keys, keys_length), LZK_DONE);
        MUST(lzk_copy(&session, &copy), LZK_DONE);
        if (level % 2) lzk_end(&session);
        MUST(lzk_keys(&copy, keys, keys_length), LZK_DONE);
        look_around(&copy);
        MUST(lzk_copy(&copy, &further), LZK_DONE);
        MUST(lzk_keys(&further, (const uint8_t *)"dzz", level % 3), LZK_DONE);
        look_around(&further);
        lzk_end(&further);
        MUST(lzk_look(&session, &(uint32_t){0}, 0, &(lzk_place){0}), level % 2 ? LZK_CLOSED : LZK_NO_ROOM);
        MUST(lzk_open((const uint8_t *)"", 0, &game, &fault), LZK_REFUSED);
        lzk_end(&copy);
        lzk_end(&session);
        lzk_close(&game);
    }
}

/* Plays a game key by key in a session from its first level on: what each key writes comes next in the output that is wanted. */
static void play_by_one(const uint8_t *text, size_t text_length, const uint8_t *keys, size_t keys_length, const uint8_t *wanted,
                        size_t size) {
    lzk_game game = LZK_NO_GAME;
    lzk_session session = LZK_NO_SESSION;
    lzk_fault fault;
    size_t from = 0, length;
    uint8_t *told = room_for(size);
    MUST(lzk_open(text, text_length, &game, &fault), LZK_DONE);
    MUST(lzk_start(&game, 1, &session), LZK_DONE);
    lzk_close(&game);
    for (size_t key = 0; key <= keys_length; key++) {
        MUST(lzk_text(&session, from, told, size - from, &length), LZK_DONE);
        if (memcmp(told, wanted + from, length)) exit(1);
        from += length;
        if (key < keys_length) MUST(lzk_keys(&session, keys + key, 1), LZK_DONE);
    }
    if (from != size && (size - from != 14 || memcmp(wanted + from, "* end of keys\n", 14))) exit(1);
    lzk_end(&session);
    free(told);
}

/* Plays a game, of which these files have the text, the keys and the output that is wanted. */
static void play_case(const char *text_name, const char *keys_name, const char *wanted_name) {
    size_t text_length, keys_length, size;
    uint8_t *text = bytes_of(text_name, &text_length), *keys = bytes_of(keys_name, &keys_length), *wanted = bytes_of(wanted_name, &size);
    uint8_t *output = room_for(size);
    lzk_outcome outcome;
    MUST(lzk_run(text, text_length, keys, keys_length, output, size, &outcome), LZK_DONE);
    if (outcome.length != size || memcmp(output, wanted, size)) exit(1);
    const uint8_t *line = memchr(wanted, '\n', size);
    if (keys_length <= 10 && line && size - (size_t)(line - wanted) > 11 && !memcmp(line, "\n# level 1\n", 11))
        play_by_one(text, text_length, keys, keys_length, wanted, size);
    free(output);
    free(wanted);
    free(keys);
    free(text);
}

/* How many bytes of memory the process has. */
static long grown(void) {
    long pages = 0, resident = 0;
    FILE *file = fopen("/proc/self/statm", "r");
    if (!file || fscanf(file, "%ld %ld", &pages, &resident) != 2) exit(1);
    fclose(file);
    return resident * sysconf(_SC_PAGESIZE);
}

int main(int count, char **words) {
    static char line[1 << 14];
    while (count == 1 && fgets(line, sizeof line, stdin)) {
        char *text = strtok(line, "\t"), *keys = strtok(NULL, "\t"), *wanted = strtok(NULL, "\n");
        play_case(text, keys, wanted);
    }
    if (count < 3) return 0;
    size_t text_length, keys_length;
    uint8_t *text = bytes_of(words[1], &text_length), *keys = bytes_of(words[2], &keys_length);
    long rounds = count > 3 ? atol(words[3]) : 0, before = 0;
    if (!rounds) {
        run_whole(text, text_length, keys, keys_length);
        play_levels(text, text_length, keys, keys_length);
    }
    for (long round = 0; round < rounds; round++) {
        lzk_game game = LZK_NO_GAME;
        lzk_session session = LZK_NO_SESSION;
        lzk_fault fault;
        MUST(lzk_open(text, text_length, &game, &fault), LZK_DONE);
        MUST(lzk_start(&game, 1, &session), LZK_DONE);
        lzk_end(&session);
        lzk_close(&game);
        if (round == rounds / 10) before = grown();
    }
    if (rounds) printf("%ld\n", grown() - before);
    free(text);
    free(keys);
    return 0;
}
"""


def compiled(archive, made, *flags):
    """Compiles the program with the archive. What the compiler complains of, or nothing."""
    source = made.with_suffix(".c")
    source.write_text(PROGRAM)
    words = ["cc", "-std=gnu99", "-g", "-Wall", "-Wextra", "-Werror", *flags, "-I", HEADER.parent, source, "-o", made, archive]
    return subprocess.run(words, capture_output=True, text=True).stderr


def with_few_keys(name, room):
    """A game, and a file with its first keys."""
    keys = room / f"{name}.keys"
    keys.write_bytes((GAMES / f"{name}.keys").read_bytes()[:FEW_KEYS])
    return [GAMES / f"{name}.game", keys]


def runs_of(archive, room):
    """Programs that are to end well and to say nothing, and a name for each."""
    sanitized = room / "sanitized"
    if not compiled(archive, sanitized, "-fsanitize=address,undefined"):
        yield from ((f"{name} by the address sanitizer", [sanitized, GAMES / f"{name}.game", GAMES / f"{name}.keys"]) for name in PLAYED)
    if shutil.which("valgrind"):
        counter = ["valgrind", "-q", "--leak-check=full", "--show-leak-kinds=all", "--errors-for-leak-kinds=all", "--error-exitcode=9"]
        yield from ((f"{name} by valgrind", [*counter, room / "plain", *with_few_keys(name, room)]) for name in PLAYED)


def wrong_plays(program):
    """What is wrong with the games of the gate as a program in C plays them."""
    cases = [case for case in of_gate() if not case.fault]
    lines = [f"{case.game}\t{case.keys if case.keys.exists() else os.devnull}\t{case.output}\n" for case in cases]
    done = subprocess.run([program], input="".join(lines), capture_output=True, text=True)
    if done.returncode != 0 or done.stdout or done.stderr:
        yield f"the games of the gate aren't played in C as they must be: status {done.returncode}\n{done.stdout}{done.stderr}"


def wrong_in_c(archive, room):
    """What is wrong with the memory of calls that a program in C makes, as far as the tools that watch it are there."""
    if not shutil.which("cc"):
        return
    if said := compiled(archive, room / "plain"):
        yield f"a program of all calls can't be compiled: {said}"
        return
    for name, words in runs_of(archive, room):
        done = subprocess.run(words, capture_output=True, text=True)
        if done.returncode != 0 or done.stdout or done.stderr:
            yield f"{name}: status {done.returncode}\n{done.stdout}{done.stderr}"
    yield from wrong_plays(room / "sanitized" if (room / "sanitized").exists() else room / "plain")
    grown = subprocess.run([room / "plain", GAMES / "moths.game", GAMES / "moths.keys", str(ROUNDS)], capture_output=True, text=True).stdout
    if not grown.strip().lstrip("-").isdigit() or int(grown) > MOST_GROWN:
        yield f"after {ROUNDS} games were opened and closed there are {grown.strip()} bytes more"
