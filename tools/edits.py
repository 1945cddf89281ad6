"""Edits of the code. A wrong controller of a lesson is a file of them, `wrong/NAME.edit`:

    # what is wrong, in a sentence
    file: crates/checks/src/lib.rt
    old: a text that stands once in the file
    new: the text that takes its place,
    new: line by line

A `file:` line holds for the pairs after it. The words are those of the crates' own must-fail edits, but that a new text may
have several lines, and that a path begins at the top of the repository, since a wrong controller may reach over several
crates.
"""
import collections
import os
import re

Change = collections.namedtuple("Change", "path old new")
Edit = collections.namedtuple("Edit", "words changes")


class BadEdit(Exception):
    """A file that is no edit, or one that does not fit the code."""


def read_edit(path):
    words, changes, file = [], [], None
    with open(path, encoding="utf-8") as lines:
        for line in lines.read().split("\n"):
            if line.startswith("# "):
                words.append(line[2:].strip())
            elif line.startswith("file: "):
                file = line[len("file: "):]
            elif line.startswith("old: "):
                changes.append(Change(file, line[len("old: "):], None))
            elif (line == "new:" or line.startswith("new: ")) and changes:
                before = changes[-1].new
                text = line[len("new: "):]
                changes[-1] = changes[-1]._replace(new=text if before is None else before + "\n" + text)
            elif line.strip():
                raise BadEdit("%s: this line is no part of an edit: %s" % (path, line))
    if not words or not changes or any(None in change for change in changes):
        raise BadEdit("%s: an edit has words for what is wrong, and lines `file:`, `old:` and `new:`" % path)
    return Edit(" ".join(words), changes)


def make(changes, root):
    """Makes the changes in the repository, or a copy of it, that stands at `root`."""
    for change in changes:
        path = os.path.join(root, change.path)
        if not re.fullmatch(r"crates/\w+/src/[\w/]+\.rt", change.path) or not os.path.isfile(path):
            raise BadEdit("there is no code at %s" % change.path)
        with open(path, encoding="utf-8") as file:
            text = file.read()
        if text.count(change.old) != 1:
            raise BadEdit("%s has this text %d times: %s" % (change.path, text.count(change.old), change.old))
        with open(path, "w", encoding="utf-8") as file:
            file.write(text.replace(change.old, change.new))
