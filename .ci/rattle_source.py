"""What the checks of this folder share: how they read Rattle and antt, their lists, and how they report.

Rattle is read only as far as its items go: modules, types, functions and the contract clauses of each. What the
reader does not know it refuses and does not pass over, so that no function slips by a check.
"""
import collections
import glob
import os
import re
import sys

ROOT = os.path.dirname(os.path.dirname(os.path.abspath(__file__)))
sys.stdout.reconfigure(encoding="utf-8")

# what ./bench says of how far it is with proving
PROGRESS = re.compile(rb"^bench: (?:proving|waiting|\d+ of \d+:) .*\n", re.M)

CLOSER = {"(": ")", "[": "]", "{": "}"}
ANGLED = {"(": ")", "[": "]", "<": ">"}
CLAUSES = ("requires", "ensures", "ghost")
# a string, a byte, a lifetime or a word, or one sign
TOKEN = re.compile(r"""b?"(?:\\.|[^"\\])*"|b?'(?:\\[^']+|[^'\\\n])'|'?\w+|[^\w\s]""", re.S)
GAP = re.compile(r"\s+|//[^\n]*")
# what begins a comment or a text of antt; `--` inside a name begins none
ANTT_BLANK = re.compile(r'\{-|"(?:\\.|[^"\\])*"|(?<![^\s(){}.;,@"«»])--[^\n]*', re.S)

# `owner` is the type whose `impl` the function stands in, or None; `public` says that the function is marked `pub` and,
# if it has no owner, that each `mod` on the way to it is `pub mod`; `path` and `lines` are its file and the lines of it
# from `fn`, or its first attribute, to the closing brace; `parameters` are their types and `result` is its type, or '', as tokens with a space
# between: `& mut [ u8 ]`
Function = collections.namedtuple("Function", "name path lines owner public parameters result clauses")


class Unreadable(Exception):
    """A file that the reader cannot take apart."""


def read(path):
    with open(os.path.join(ROOT, path), encoding="utf-8") as file:
        return file.read()


def files(pattern):
    """The files that fit a pattern, from the repository's root, in order."""
    found = glob.glob(os.path.join(glob.escape(ROOT), pattern), recursive=True)
    return sorted(os.path.relpath(path, ROOT) for path in found)


def nested_end(text, at, opener, closer):
    """Where the comment that begins at `at` ends: comments nest, in Rattle and in antt."""
    depth = 0
    for mark in re.compile(re.escape(opener) + "|" + re.escape(closer)).finditer(text, at):
        depth += 1 if mark.group() == opener else -1
        if depth == 0:
            return mark.end()
    return len(text)


def antt_code(text):
    """antt's text with spaces for each comment and each quoted text, so that every line keeps its place."""
    code, at = "", 0
    while True:
        found = ANTT_BLANK.search(text, at)
        if not found:
            return code + text[at:]
        end = nested_end(text, found.start(), "{-", "-}") if found.group() == "{-" else found.end()
        code += text[at:found.start()] + re.sub(r"[^\n]", " ", text[found.start():end])
        at = end


def antt_lines(path):
    """The lines of an antt file that begin at its left edge, each with the indented lines below it, and with what begins
    by closing a bracket, as one text, comments left out and each gap one space. What stands in a block, as
    `module _ (h : A) where`, is part of the block's text and so is taken for no declaration of its own."""
    lines = []
    for line in antt_code(read(path)).splitlines():
        if not line.strip():
            continue
        if (line[0].isspace() or line[0] in CLOSER.values()) and lines:
            lines[-1] += " " + line
        else:
            lines.append(line)
    return [" ".join(line.split()) for line in lines]


class Source:
    """A Rattle file, read token by token."""

    def __init__(self, path):
        self.path, self.text, self.at = path, read(path), 0

    def line(self):
        return self.text.count("\n", 0, self.at) + 1

    def place(self):
        return "%s:%d" % (self.path, self.line())

    def token(self):
        """The next token, or '' at the end; comments are passed over."""
        while True:
            gap = GAP.match(self.text, self.at)
            if gap:
                self.at = gap.end()
            elif self.text.startswith("/*", self.at):
                self.at = nested_end(self.text, self.at, "/*", "*/")
            else:
                break
        found = TOKEN.match(self.text, self.at)
        if not found:
            return ""
        self.at = found.end()
        return found.group()

    def peek(self):
        at = self.at
        token = self.token()
        self.at = at
        return token

    def refuse(self, token):
        raise Unreadable("%s: this check cannot read `%s` here" % (self.place(), token))

    def skip(self, last):
        """Passes over all up to the token `last`, and over it."""
        while True:
            token = self.token()
            if token == last:
                return
            if token in CLOSER:
                self.skip(CLOSER[token])
            elif token == "" or token in CLOSER.values():
                self.refuse(token)

    def parted(self, *last):
        """The texts between commas from here to the first of the tokens `last`, which is passed over, and that token; a
        text is its tokens with a space between, and what stands in brackets is part of a text."""
        texts, inner = [[]], []
        while True:
            token = self.token()
            if not inner and token in last:
                return [" ".join(text) for text in texts if text], token
            if token in ANGLED:
                inner.append(ANGLED[token])
            elif inner and token == inner[-1]:
                inner.pop()
            elif token in ("", *CLOSER.values()) or token == ";" and not inner:
                self.refuse(token)
            if token == "," and not inner:
                texts.append([])
            else:
                texts[-1].append(token)

    def past_antt_line(self):
        """Passes over the rest of a `ghost use` item, which is antt's."""
        end = self.text.find(";", self.at)
        if end < 0:
            self.refuse("ghost")
        self.at = end + 1

    def clause(self):
        """Passes over a clause behind its first word: a star and a name, if it has them, and a term of antt in braces."""
        token = self.token()
        if token == "*":
            token = self.token()
        if token != "{":
            token = self.token()
        if token != "{":
            self.refuse(token)
        depth = 1
        for brace in re.finditer("[{}]", antt_code(self.text[self.at:])):
            depth += 1 if brace.group() == "{" else -1
            if depth == 0:
                self.at += brace.end()
                return
        self.refuse("{")


class Library:
    """The functions of a library crate, by what its sources say; of a program too, where it is asked for."""

    def __init__(self, crate):
        self.crate, self.functions, self.types, self.reexports = crate, [], set(), []
        top = "lib" if files("crates/%s/src/lib.rt" % crate) else "main"
        self.items(Source("crates/%s/src/%s.rt" % (crate, top)), "", [], True, None)

    def public(self):
        """The functions that another crate can call. A method is public where its type is."""
        return [f for f in self.functions if f.public and (f.owner is None or f.owner in self.types)]

    def items(self, source, last, module, is_open, owner):
        """Reads items up to `last`: a closing brace, or '' for the file's end. `is_open` says that each `mod` on the
        way here is `pub mod`."""
        pub, marked = False, None
        while True:
            token = source.token()
            begun, place = source.at, source.place()
            if token == last:
                return
            if token == "pub":
                pub = source.peek() != "("
                if not pub:  # pub(crate) and the like
                    source.token()
                    source.skip(")")
                continue
            if token == "#":  # an attribute, #[..] or #![..]
                marked = marked or source.line()
                token = source.token()
                if token == "!":
                    token, marked = source.token(), None
                if token != "[":
                    source.refuse(token)
                source.skip("]")
                continue
            if token == "const" and source.peek() == "fn":
                continue
            if token == "extern" and source.token() == '"C"' and source.peek() == "fn":
                continue
            if token == "fn":
                self.function(source, module, is_open, owner, pub, marked)
            elif token == "mod":
                self.module(source, module, is_open and pub)
            elif token == "impl":
                name = self.type_of_impl(source)
                self.items(source, "}", module, is_open, name)
            elif token in ("struct", "enum"):
                if pub and is_open:
                    self.types.add(source.peek())
                self.past_type(source)
            elif token == "use":
                if pub and is_open:
                    self.reexports.append(place)
                source.skip(";")
            elif token == "ghost":
                source.past_antt_line()
            elif token in ("const", "type"):
                source.skip(";")
            else:
                source.refuse(token)
            if token in ("struct", "enum", "type") and re.search(r"\bmut\b", source.text[begun:source.at]):
                source.refuse("mut")  # who holds one is written through, and no signature shows it
            pub, marked = False, None

    def function(self, source, module, is_open, owner, pub, marked):
        first, name, clauses = marked or source.line(), source.token(), []
        source.parted("(")
        parameters, _ = source.parted(")")
        result, token = source.parted("{", *CLAUSES)
        while token != "{":
            if token not in CLAUSES:
                source.refuse(token)
            clauses.append(token)
            source.clause()
            token = source.token()
        source.skip("}")
        path = module + [owner] * (owner is not None) + [name]
        lines = range(first, source.line() + 1)
        is_public = pub and (is_open or owner is not None)
        types = [parameter.split(" : ", 1)[-1] for parameter in parameters]
        of = "".join(result)[len("- > "):]
        self.functions.append(Function("::".join(path), source.path, lines, owner, is_public, types, of, clauses))

    def module(self, source, module, is_open):
        inner = module + [source.token()]
        token = source.token()
        if token == ";":
            self.items(Source("crates/%s/src/%s.rt" % (self.crate, "/".join(inner))), "", inner, is_open, None)
        elif token == "{":
            self.items(source, "}", inner, is_open, None)
        else:
            source.refuse(token)

    def type_of_impl(self, source):
        depth, name = 0, ""
        while True:
            token = source.token()
            if token == "{":
                return name
            depth += (token == "<") - (token == ">")
            if depth == 0 and re.match(r"\w", token):
                name = token
            if token in ("", ";", "}"):
                source.refuse(token)

    def past_type(self, source):
        while True:
            token = source.token()
            if token == ";":
                return
            if token in CLOSER:
                source.skip(CLOSER[token])
                if token == "{":
                    return
            elif token == "" or token in CLOSER.values():
                source.refuse(token)


def libraries():
    """The library crates: those with src/lib.rt."""
    return [Library(path.split("/")[1]) for path in files("crates/*/src/lib.rt")]


def listed(name):
    """The lines of a list of this folder as (place, words); `#` starts a comment."""
    path = ".ci/" + name
    for number, line in enumerate(read(path).splitlines(), 1):
        words = line.split("#")[0].split()
        if words:
            yield "%s:%d" % (path, number), words


def unless_excepted(name, functions, wanting):
    """The faults of `wanting`, which has them by (crate, function), without those that the list .ci/NAME excepts, and
    the list's own: a line with no cause, one of no public function, and one that is not needed."""
    faults, left = [], dict(wanting)
    for place, words in listed(name):
        key, shown = tuple(words[:2]), " ".join(words[:2])
        if len(words) < 3:
            faults.append("%s: %s: no cause is given" % (place, shown))
        elif key not in functions:
            faults.append("%s: %s: no public function of a library crate" % (place, shown))
        elif key not in left:
            faults.append("%s: %s: this exception is not needed" % (place, shown))
        else:
            del left[key]
    return faults + ["%s %s" % (" ".join(key), text) for key, text in left.items()]


def check(name, run):
    """Runs a check, which gives what it found in words and a list of faults; prints both and ends with the status."""
    try:
        found, faults = run()
    except (Unreadable, OSError) as error:
        found, faults = "not all could be read", [str(error)]
    for fault in faults:
        print("%s: fault: %s" % (name, fault))
    print("%s: %s, %d fault%s" % (name, found, len(faults), "" if len(faults) == 1 else "s"))
    sys.exit(1 if faults else 0)
