"""Texts that a terminal doesn't obey.

All that this program writes of a game's text or of a file's name goes through `harmless`.
"""
import os
import re

# The control characters of ASCII and of Latin 1, and what turns the direction of writing.
_ORDERS = re.compile("[\x00-\x1f\x7f-\x9f\u202a-\u202e\u2066-\u2069]")
_ORDERS_IN_LINES = re.compile("[\x00-\x09\x0b-\x1f\x7f-\x9f\u202a-\u202e\u2066-\u2069]")
_HALVES = re.compile("[\ud800-\udfff]")
_DOT = "\u00b7"
_UNREADABLE = "\ufffd"


def harmless(text):
    """The text, with a dot in place of each character that is an order to a terminal."""
    return _HALVES.sub(_UNREADABLE, _ORDERS.sub(_DOT, text))


def harmless_lines(text):
    """The same for a text of several lines: line feeds are kept."""
    return _HALVES.sub(_UNREADABLE, _ORDERS_IN_LINES.sub(_DOT, text))


def decoded(data):
    """The text that bytes are, with U+FFFD where they aren't UTF-8."""
    return data.decode("utf-8", "replace")


def name_text(path):
    """The name of a file as a harmless text."""
    return harmless(decoded(os.fsencode(path)))
