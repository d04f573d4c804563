"""Letters for objects without a glyph: a screen shows them by letters of their names, where a run writes `?`.

The copy of the text that is played gets a line of LEGEND for each. What the text means stays as it is: no level can use a
character that the text doesn't declare, and only cells that would be `?` look different.
"""
from player import Fault

# Nearly all texts take all lines at once. Of the others, this many tries find out which lines they take.
_MOST_TRIES = 50


def _letters(name, taken):
    """The letters of a name that aren't taken. Capitals and small letters are the same to the player."""
    return [letter for letter in dict.fromkeys(name) if letter.isalpha() and letter.lower() not in taken]


def _places(data):
    """Where lines of LEGEND may begin: after the header and the rows of `=` below it. A comment may have such a header too."""
    rows = data.splitlines(keepends=True)
    for number, row in enumerate(rows, 1):
        if row.strip().lower() == b"legend":
            while number < len(rows) and set(rows[number].strip()) == set(b"="):
                number += 1
            yield len(b"".join(rows[:number]))


def _first_letters(names, taken):
    """Pairs of a letter and a name: for each name the first letter that is left, if one is."""
    given, taken = [], set(taken)
    for name in names:
        for letter in _letters(name, taken)[:1]:
            given.append((letter, name))
            taken.add(letter.lower())
    return given


class _Copy:
    """The text that is played, with lines of LEGEND at a place."""

    def __init__(self, player, text, place):
        self._player, self._text, self._place = player, text, place

    def described_with(self, given):
        """What the player says of the text with a line for each letter that is given; None where it doesn't take them."""
        before, after = self._text.data[:self._place], self._text.data[self._place:]
        lines = "".join(f"{letter} = {name}\n" for letter, name in given)
        self._text.write(before + lines.encode() + after)
        try:
            described = self._player.describe(self._text.path)
        except Fault:
            return None
        is_taken = not any(name in described.without_glyph for _, name in given)
        return described if is_taken else None

    def taken_letters(self, names, taken):
        """Pairs of a letter and a name, as the text takes them one after the other."""
        given, tries = [], _MOST_TRIES
        for name in names:
            for letter in _letters(name, taken | {letter.lower() for letter, _ in given}):
                tries -= 1
                if tries >= 0 and self.described_with([*given, (letter, name)]):
                    given.append((letter, name))
                    break
        return given


def with_glyphs(player, text, described):
    """Gives the objects of a text that have no glyph a letter each. Answers what the player says of the text then."""
    taken = {glyph.lower() for glyph, _ in described.glyphs}
    given = _first_letters(described.without_glyph, taken)
    if not given:
        return described
    for place in _places(text.data):
        copy = _Copy(player, text, place)
        now = copy.described_with(given)
        if now is None:
            given_one_by_one = copy.taken_letters(described.without_glyph, taken)
            now = given_one_by_one and copy.described_with(given_one_by_one)
        if now:
            # The page of help begins with those that the text itself declares.
            now.glyphs.sort(key=lambda each: each not in described.glyphs)
            return now
    text.write(text.data)
    return described
