"""The prose of the repository: its documents, and what comments, help and man pages say, line by line and sentence by sentence."""
import io
import re
import tokenize

SLASHES = re.compile(r"(?:^|\s)//[/!]?(.*)")
COMMENT = {".rt": SLASHES, ".test": SLASHES, ".antt": re.compile(r"(?:^|\s)-- (.*)")}
QUOTED = re.compile(r"`[^`\n]*`")
BLOCK = re.compile(r"^( *)```.*?^ *```", re.S | re.M)
LINK = re.compile(r"\[([^\]]*)\]\([^)]*\)")
MARKS = {".rt": "//", ".test": "//", ".antt": "-- "}
MARK = re.compile(r"^(?://[/!]?|--) ?")
RULER = re.compile(r"-{20,}")
CLAUSE = re.compile(r"[;:]\s")
END = re.compile(r"(?<=[.!?:;])[*_\"')]*\s+(?=[A-Z0-9`*(\[_\"']|$)")


def without_blocks(text):
    """A document whose blocks of text are empty lines."""
    return BLOCK.sub(lambda block: "\n" * block[0].count("\n"), text)


def of_python(text):
    """The lines of comments and of texts in a program of Python, with their numbers."""
    for token in tokenize.generate_tokens(io.StringIO(text).readline):
        if token.type in (tokenize.COMMENT, tokenize.STRING):
            yield from enumerate(token.string.split("\n"), token.start[0])


def lines_of(file):
    """The lines of prose of a file, with their numbers; what stands in backquotes is a blank there."""
    text = file.read_text()
    if file.suffix in COMMENT:
        found = ((number, COMMENT[file.suffix].search(line)) for number, line in enumerate(text.split("\n"), 1))
        lines = ((number, comment[1]) for number, comment in found if comment)
    elif file.suffix == ".py" or text.startswith("#!/usr/bin/env python3"):
        lines = of_python(text)
    else:
        lines = enumerate(without_blocks(text).split("\n") if file.suffix == ".md" else text.split("\n"), 1)
    for number, line in lines:
        yield number, QUOTED.sub("`", line)


def sentences(text):
    """The sentences of a document, each with its words: a list, a cell of a table and a heading have sentences of their own."""
    paragraphs = re.split(r"\n\s*\n|\n(?=\s*(?:[-*|#]|\d+\.)\s?)|(?<=\|)\s", without_blocks(text))
    for paragraph in paragraphs:
        plain = LINK.sub("`", QUOTED.sub("`", paragraph))
        for cell in plain.strip().strip("|").split(" | "):
            for sentence in END.split(" ".join(cell.split())):
                if words := re.findall(r"[\w'’`.,-]*\w[\w'’`-]*|`", sentence):
                    yield sentence, words


def comments(text, suffix):
    """The comments of a source, each with the number of its first line and its text."""
    begun, found = None, []
    for number, line in enumerate(text.split("\n"), 1):
        words = line.strip()
        if not words.startswith(MARKS[suffix]) or RULER.search(words):
            begun = None
            continue
        if begun is None:
            begun = number
            found.append((number, []))
        found[-1][1].append(MARK.sub("", words))
    return [(number, "\n".join(lines)) for number, lines in found]


def clauses(text):
    """The sentences of a comment, each with its words; a colon and a semicolon end one."""
    for part in CLAUSE.split(text):
        yield from sentences(part)
