"""The public calls of the crates that can answer that they are out of memory, as they stand in the sources.

Public are the functions that a crate exports, the methods of types that it exports, and those of traits that it
exports, once for all types; of crates that others stand on. A call can answer that it is out of memory where its answer
is a `Result` whose error is `AllocError`, or one of these crates' types that is called `Memory`, has a variant of that name, or
has a variant with such an error; and so can the command line, and the search of a graph.
"""
import collections
import re

from crates import TOP, read_uses

# What answers a status, and says on standard error that it is out of memory; and what answers how far it came until then.
TELLING = ["run_command_line", "search"]
# The names that a crate exports; a type that can say out of memory, and one that may have a variant with such a type; what
# stands in a source, by lines.
EXPORT = re.compile(r"^pub use [\w:]*?(\w+|\{[^}]*\});", re.M)
WANTING = re.compile(r"^pub (?:struct (Memory);|enum (\w+) \{\n(?:(?!\}).*\n)*?    Memory,\n)", re.M)
HOLDING = re.compile(r"^pub enum (\w+) \{\n((?:(?!\}).*\n)*)", re.M)
FUNCTION = r"^ *(?P<open>pub )?fn (?P<name>\w+)(?P<rest>[^{;]*)"
PART = re.compile(r"^(?:pub )?(?P<block>(?:impl|trait)\b[^{;]*)\{|^(?P<end>\})|" + FUNCTION, re.M)
CONTRACT = re.compile(r"\n\s*(?:requires|ensures|where)\b")
IN_ANGLES = re.compile(r"<[^<>]*>")


def sources_of(crate):
    """The texts of a crate's sources."""
    return [file.read_text() for file in sorted((TOP / "crates" / crate / "src").glob("**/*.rt"))]


def owner_of(block):
    """The type or the trait whose functions stand in a block, and nothing for a type's functions of a trait."""
    while (shorter := IN_ANGLES.sub("", block)) != block:
        block = shorter
    return None if " for " in block else re.search(r"(?:impl|trait)\s+(\w+)", block)[1]


def answers_in(source):
    """The functions of a source by name, each with its type or trait and with the error that it may answer."""
    owner, in_trait, in_block = None, False, False
    for part in PART.finditer(source):
        if part["block"]:
            owner, in_trait, in_block = owner_of(part["block"]), part["block"].startswith("trait"), True
        elif part["end"]:
            owner, in_trait, in_block = None, False, False
        elif part["open"] and (owner or not in_block) or in_trait:
            answer = CONTRACT.split(part["rest"])[0].rpartition("->")[2].strip()
            error = re.search(r"(\w+)>$", answer)
            yield owner, part["name"], error and error[1]


def exports_of(crate):
    """The names that a crate exports."""
    library = (TOP / "crates" / crate / "src/lib.rt").read_text()
    return {name for match in EXPORT.finditer(library) for name in re.findall(r"\w+", match[1])}


def errors_in(texts):
    """The types of errors that can say out of memory."""
    errors = {"AllocError"} | {match[1] or match[2] for text in texts for match in WANTING.finditer(text)}
    holders = [match for text in texts for match in HOLDING.finditer(text)]
    return errors | {match[1] for match in holders if errors & set(re.findall(r"^    \w+\((\w+)\),$", match[2], re.M))}


def public_calls():
    """Those calls by name, a method after its type or trait and `::`, each once.

    Before a name that two crates have stands that of the crate and `::`.
    """
    uses = read_uses()
    crates = {crate: sources_of(crate) for crate in uses if any(crate in rest for rest in uses.values())}
    errors = errors_in([source for sources in crates.values() for source in sources])
    owners = collections.defaultdict(list)
    for crate, sources in crates.items():
        exported = exports_of(crate)
        for owner, name, error in (answer for source in sources for answer in answers_in(source)):
            if (owner or name) in exported and (error in errors or name in TELLING):
                owners[f"{owner}::{name}" if owner else name].append(crate)
    owners = {call: list(dict.fromkeys(crates)) for call, crates in owners.items()}
    return [f"{crate}::{call}" if crates[1:] else call for call, crates in owners.items() for crate in crates]
