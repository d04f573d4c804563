"""Bytes as letters that may stand in a script: five letters for four bytes, where base64 has five and a third.

The letters are those of ASCII that mean nothing in a text of JavaScript or HTML. `page/src/letters.mjs` reads them.
"""
LETTERS = "".join(chr(code) for code in range(33, 127) if chr(code) not in "\"'`\\<>&$/")
assert len(LETTERS) == 85


def letters_of(data):
    """The letters of bytes. Of the last four bytes those that lack are zeros."""
    words = (int.from_bytes(data[place:place + 4].ljust(4, b"\0"), "big") for place in range(0, len(data), 4))
    return "".join(LETTERS[word // 85 ** power % 85] for word in words for power in (4, 3, 2, 1, 0))
