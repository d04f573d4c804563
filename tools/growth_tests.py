"""The tests of calls that are refused growths: they stand in tools/growths, and are run and not proved.

A file tools/growths/NAME.test is a module NAME of a crate that exists in copies of the tree alone, since the gate
proves what stands in crates/, and these tests would take it half an hour. Modules that they name and that don't stand
there are those of crates/ps_tests.
"""
import re
import shutil

from crates import TOP, in_order, read_uses

CRATE = "ps_growths"
SOURCES = TOP / "tools/growths"
SHARED = TOP / "crates/ps_tests/src"
LEFT_OUT = shutil.ignore_patterns("out", "data", "must-fail", "wrong-bodies")


def modules():
    """The texts of the crate's modules by name."""
    texts = {file.stem: file.read_text() for file in SOURCES.glob("*.test")}
    left = list(texts)
    while left:
        for name in re.findall(r"\bcrate::(\w+)", texts[left.pop()]):
            if name not in texts:
                texts[name] = (SHARED / f"{name}.rt").read_text()
                left.append(name)
    return dict(sorted(texts.items()))


def lay(top):
    """Copies the sources of the crates to the folder `top`, with these tests as one more crate."""
    texts, uses = modules(), read_uses()
    shutil.copytree(TOP / "crates", top / "crates", ignore=LEFT_OUT)
    shutil.copy(TOP / "HANDLES", top)
    named = set(re.findall(r"(?:use |Rattle\.)(ps_\w+)", "".join(texts.values())))
    line = f"{CRATE}: {' '.join(in_order(sorted(named), uses))}\n"
    (top / "crates.txt").write_text((TOP / "crates.txt").read_text() + line)
    source = top / "crates" / CRATE / "src"
    source.mkdir(parents=True)
    for name, text in texts.items():
        (source / f"{name}.rt").write_text(text)
    parts = "".join(f"\n#[cfg(test)]\nmod {name};" for name in texts)
    (source / "lib.rt").write_text(f"//! Tests of calls that are refused growths.\n#![tactic(auto)]\n{parts}\n")
