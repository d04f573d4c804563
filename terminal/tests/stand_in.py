#!/usr/bin/env -S python3 -I -S
"""A stand-in for the program ps_play, for tests of what is around it: small games on a grid, and a simple view.

In a level P walks on `.`; `#` is a wall, `*` wins, `m` shows a message, and from `a` on the player slides to the right, cell XX
"""
import os
import sys

STEPS = {"w": (-1, 0), "a": (0, -1), "s": (1, 0), "d": (0, 1), "x": (0, 0)}
KEYS_LINE = "w a s d move, x act, z undo, r restart, q quit"


def write(text):
    os.write(1, text.encode("utf-8", "surrogateescape"))


def read_game(name):
    """The title and the entries: messages, and levels as lists of rows."""
    with open(name, encoding="utf-8", errors="surrogateescape") as file:
        text = file.read()
    if "FAULT" in text:
        sys.stderr.write("line 1: TX1 Fault\n     1  FAULT \x1b[31m\n")
        sys.exit(1)
    title, *blocks = text.strip("\n").split("\n\n")
    entries = [block[8:] if block.startswith("message ") else block.split("\n") for block in blocks]
    return title.replace("title ", "", 1), entries


class Game:
    """A run, from keys to output."""

    def __init__(self, title, entries, level):
        self.entries, self.place, self.number = entries, 0, 0
        self.waiting, self.over = [], False
        write(f"= {title}\n")
        while level > 1:
            level -= isinstance(entries[self.place], list)
            self.number += isinstance(entries[self.place], list)
            self.place += 1
        self.enter()

    def enter(self):
        if self.place == len(self.entries):
            self.end("won")
        elif isinstance(self.entries[self.place], str):
            write(f"! {self.entries[self.place]}\n")
            self.place += 1
            self.waiting.append(self.enter)
        else:
            self.number += 1
            write(f"# level {self.number}\n")
            self.rows = [list(row) for row in self.entries[self.place]]
            self.row, self.column = next(
                (row, cells.index("P")) for row, cells in enumerate(self.rows) if "P" in cells)
            self.rows[self.row][self.column] = "."
            self.begun, self.kept = (self.row, self.column), []
            self.show()

    def end(self, how):
        self.over = True
        write(f"* {how}\n")

    def show(self):
        rows = [row[:] for row in self.rows]
        rows[self.row][self.column] = "P"
        write("".join("".join(row) + "\n" for row in rows) + "\n")

    def key(self, key):
        if key == "q":
            self.end("quit")
        elif self.waiting:
            if key == "x":
                self.waiting.pop()()
        elif key == "z":
            self.row, self.column = self.kept.pop() if self.kept else (self.row, self.column)
            self.show()
        elif key == "r":
            self.kept.append((self.row, self.column))
            self.row, self.column = self.begun
            self.show()
        elif key in STEPS:
            self.move(*STEPS[key])

    def move(self, down, right):
        before = self.row, self.column
        row, column = self.row + down, self.column + right
        if self.rows[row][column] != "#":
            self.row, self.column = row, column
        if before != (self.row, self.column):
            self.kept.append(before)
        self.show()
        cell = self.rows[self.row][self.column]
        while cell == "a" and self.rows[self.row][self.column + 1] != "#":
            self.column += 1
            self.show()
        if cell == "*":
            write(f"* level {self.number} done\n")
            self.place += 1
            self.enter()
        elif cell == "f":
            sys.stderr.write("cannot go on \x1b[31m\n")
            sys.exit(1)
        elif cell == "m":
            write("! Hello\n")
            self.waiting.append(lambda: None)


def play(name, level):
    game = Game(*read_game(name), level)
    while not game.over:
        key = os.read(0, 1).decode("latin-1")
        if key:
            game.key(key)
        else:
            game.end("end of keys")


def solve():
    """Says that a win is as many keys away as there are keys on standard input, and two more."""
    count = len(sys.stdin.buffer.read()) + 2
    write(f"level 1: won in {count} keys: {'d' * count}\n")


def describe(name):
    import json

    title, entries = read_game(name)
    levels = sum(isinstance(entry, list) for entry in entries)
    glyphs = [{"glyph": "P", "objects": ["Player"]}, {"glyph": "*", "objects": ["Goal", "Light"]}]
    write(json.dumps({"title": title, "levels": levels, "ignored_keys": [], "glyphs": glyphs, "player_glyphs": "P",
                      "without_glyph": []}))


def part(rows, columns, frame):
    """The part of a frame that has the player."""
    place = next(((r, row.index("P")) for r, row in enumerate(frame) if "P" in row), (0, 0))
    top = min(max(place[0] - rows // 2, 0), max(len(frame) - rows, 0))
    left = min(max(place[1] - columns // 2, 0), max(max(map(len, frame), default=0) - columns, 0))
    return [row[left:left + columns] for row in frame[top:top + rows]]


def harmless(text):
    """The text without orders."""
    return "".join("·" if c < " " or c in "\u202e\u2066" else c for c in text)


def show(rows, columns):
    """Shows lines of standard input in place."""
    title = level = note = news = ""
    frame, begun = [], []
    for line in os.fdopen(0, encoding="utf-8", errors="replace"):
        line = line[:-1]
        is_drawn = line[:2] in ("! ", "* ", "? ") and not line.startswith("* level ")
        if line.startswith("= "):
            title = line
        elif line.startswith("# "):
            level, note, news, frame = line, "", "", []
        elif line.startswith("~ "):
            note = line[2:]
        elif line.startswith("? "):
            news = line[2:]
        elif line.startswith("! "):
            news = line + " [x]"
        elif line.startswith("* "):
            news = line if is_drawn else news
        elif line:
            begun.append(line)
        else:
            frame, begun, news, is_drawn = begun, [], "", True
        if is_drawn:
            below = [title, f"{level}  {note}" if note else level, KEYS_LINE] + ([news] if news else [])
            below = [row if len(row) <= columns else row[:columns - 1] + "…" for row in below][3 if rows < 8 else 0:]
            screen = part(rows - len(below), columns, frame) + below
            drawn = "".join(f"\x1b[{place};1H\x1b[2K{harmless(row)}" for place, row in enumerate(screen, 1))
            write("\x1b[?25l\x1b[2J" + drawn)
            if line.startswith("* "):
                write(f"\x1b[{len(screen)};1H\r\n\x1b[J\x1b[?25h")
                return


def main(words):
    words = [word for word in words if word != "--"]
    if "--help" in words:
        write("      --level <N>  Begins at the Nth level\n      --after <KEYS>  Searches\n")
    elif "--solve" in words:
        solve()
    elif "--describe" in words:
        describe(words[1])
    elif "--view" in words:
        show(*map(int, words[2].split("x")))
    else:
        play(words[0], int(words[2]) if "--level" in words else 1)


if __name__ == "__main__":
    main(sys.argv[1:])
