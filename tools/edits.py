"""Edits that the proofs must refuse: which of them can still be applied to the sources.

A file crates/CRATE/must-fail/NAME.edit has lines 'file: PATH', with a path in the crate's folder, and pairs of lines 'old: TEXT'
and 'new: TEXT'. Those of wrong-bodies have the same form; their path may lead to a crate below, as ../OTHER/specs/X.antt.
"""
from crates import TOP


def can_be_applied(edit):
    """Whether each old text of an edit stands once in its file, after what the pairs before it made of that file."""
    texts, file, old = {}, None, None
    for line in edit.read_text().splitlines():
        word, _, rest = line.partition(": ")
        if word == "file":
            file = edit.parent.parent / rest.strip()
            texts.setdefault(file, file.read_text() if file.is_file() else "")
        elif word == "old":
            old = rest
        elif word in ("new", "new:") and old is not None:
            if texts.get(file, "").count(old) != 1:
                return False
            texts[file], old = texts[file].replace(old, rest), None
    return True


def stale_edits(folders=("must-fail",)):
    """The edits in these folders of all crates that can't be applied."""
    edits = sorted(edit for folder in folders for edit in TOP.glob(f"crates/*/{folder}/*.edit"))
    return [edit.relative_to(TOP) for edit in edits if not can_be_applied(edit)]
