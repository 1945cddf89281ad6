"""What a lesson's folder holds: its page, its input, the listing, and the wrong controllers that the page speaks of.

    page.md               for the class
    input                 lines for the listing program
    args                  its words, one to a line; without it there are none
    listing               what it lists
    listing.old           what it lists with the word `old`, where the lesson is told with both
    shown                 the listing for people, where it is kept
    wrong/NAME.edit       a wrong controller: an edit of the code, with a sentence
    wrong/NAME.listing    what that one lists for the same input; or, with the word `old`, wrong/NAME.listing.old
"""
import collections
import os

import edits

# A wrong controller: its name, its edit, and (words, path) of each listing of it that is kept
Wrong = collections.namedtuple("Wrong", "name edit listings")


def is_lesson(folder):
    return os.path.isfile(os.path.join(folder, "input"))


def title(folder):
    """The title of a lesson's page; a lesson that is being made may have none yet."""
    path = os.path.join(folder, "page.md")
    if not os.path.isfile(path):
        return "(no page yet)"
    with open(path, encoding="utf-8") as page:
        return page.readline().lstrip("# ").strip()


def words_of(folder):
    """The words that the lesson starts the program with."""
    path = os.path.join(folder, "args")
    if not os.path.isfile(path):
        return []
    with open(path, encoding="utf-8") as words:
        return words.read().splitlines()


def kept(folder, name):
    """The listings of a lesson, or of a wrong controller of it, that are kept: (words, path) of each."""
    either = ((words_of(folder), os.path.join(folder, name)), (["old"], os.path.join(folder, name + ".old")))
    return [(words, path) for words, path in either if os.path.isfile(path)]


def wrongs_of(folder):
    """The wrong controllers of a lesson, in the order of their names."""
    inner = os.path.join(folder, "wrong")
    names = sorted(name[:-len(".edit")] for name in os.listdir(inner) if name.endswith(".edit")) if os.path.isdir(inner) else []
    return [
        Wrong(name, edits.read_edit(os.path.join(inner, name + ".edit")), kept(folder, os.path.join("wrong", name + ".listing")))
        for name in names
    ]
