"""Proving, building and running the programs of this repository, with the Rattle toolchain's command `rt`."""
import contextlib
import fcntl
import hashlib
import os
import re
import shutil
import signal
import subprocess
import sys
import tempfile
import threading

import edits

ROOT = os.path.dirname(os.path.dirname(os.path.realpath(__file__)))
# So long may be waited in silence, for another command.
PATIENCE = 3.0
USUALLY = "some minutes, once"
CHUNK = 65536
# what is proved of a crate stands on
PARTS = ("src", "specs", "proofs")

# `rt run` says of each library that it proves what it is called, and then that it is proved
CRATE = re.compile(r"crate (\w+): modules ")
PROVED = "logic=proved "
# What `rt try` says behind what the program says on standard error
TRIED = re.compile(
    r"\A(.*?)(?:rt: a check will refuse this: [^\n]*\n)*(?:(?:checked|interpreter): [^\n]*\n)*run=ended status=0 [^\n]*\n\Z", re.S)
# more seconds than any lesson takes
LIMITS = ("--seconds", "600")


class Failed(Exception):
    """What the user is told, in a sentence; the command then ends with a status that is not 0."""


def say(text):
    sys.stderr.write("bench: %s\n" % text)
    sys.stderr.flush()


def rt():
    found = shutil.which("rt")
    if not found:
        raise Failed("rt, the command of the Rattle toolchain, is not on the PATH")
    return found


def start_rt(words, folder, **how):
    """Starts `rt` in a session of its own, so that all that it starts can be ended with it."""
    how = {"stdin": subprocess.DEVNULL, "stdout": subprocess.PIPE, "stderr": subprocess.STDOUT, **how}
    return subprocess.Popen([rt()] + words, cwd=folder, start_new_session=True, **how)


def end_rt(process):
    if process.poll() is None:
        os.killpg(process.pid, signal.SIGTERM)
        process.wait()


def needs():
    """What each crate of the repository is listed with."""
    with open(os.path.join(ROOT, "crates.txt"), encoding="utf-8") as lines:
        texts = [line.split("#")[0] for line in lines]
    return {crate.strip(): words.split() for crate, _, words in (text.partition(":") for text in texts if ":" in text)}


def crates_of(program):
    """The crates of the repository that a program is proved over and the program itself, each behind those that it needs, which is
    the order that `rt` proves them in."""
    of, found = needs(), []

    def see(crate):
        for below in of[crate]:
            if below in of and below not in found:
                see(below)
        found.append(crate)

    see(program)
    return found


def copy_crates(root, parts=PARTS):
    """Copies what these parts of the crates hold, and the list of crates, to the folder `root`."""
    for crate in os.listdir(os.path.join(ROOT, "crates")):
        for part in parts:
            folder = os.path.join("crates", crate, part)
            if os.path.isdir(os.path.join(ROOT, folder)):
                shutil.copytree(os.path.join(ROOT, folder), os.path.join(root, folder))
    shutil.copy(os.path.join(ROOT, "crates.txt"), root)


@contextlib.contextmanager
def told_after(seconds, text):
    """Tells the text unless what is done within takes less time."""
    timer = threading.Timer(seconds, say, [text])
    timer.daemon = True
    timer.start()
    try:
        yield
    finally:
        timer.cancel()


@contextlib.contextmanager
def alone():
    """Waits until no other command proves in this repository: it would prove the same."""
    folder = os.open(ROOT, os.O_RDONLY)
    try:
        with told_after(PATIENCE, "waiting for another ./bench, which proves"):
            fcntl.flock(folder, fcntl.LOCK_EX)
        yield
    finally:
        os.close(folder)


def built(program):
    """Where `rt` builds a program."""
    return os.path.join(ROOT, "crates", program, "out", program)


def sources_of(program):
    for crate in crates_of(program):
        for part in PARTS:
            for folder, inner, names in os.walk(os.path.join(ROOT, "crates", crate, part)):
                inner.sort()
                yield from (os.path.join(folder, name) for name in sorted(names))


def sum_of(program):
    """A sum of the sources that a program is proved and made from, and of the program; None where it is not built."""
    if not os.path.isfile(built(program)):
        return None
    found = hashlib.sha256(repr([(crate, needs()[crate]) for crate in crates_of(program)]).encode())
    for path in [*sources_of(program), built(program)]:
        with open(path, "rb") as file:
            found.update(os.path.relpath(path, ROOT).encode() + b"\0" + hashlib.sha256(file.read()).digest())
    return found.hexdigest()


def note(program, proved):
    """Notes that a program stands there as it was proved and built from the sources as they are."""
    with open(built(program) + ".proved", "w", encoding="utf-8") as file:
        file.write(proved)


def is_noted(program):
    path = built(program) + ".proved"
    if not os.path.isfile(path):
        return False
    with open(path, encoding="utf-8") as file:
        return file.read() == sum_of(program)


def prove(program):
    """Proves and builds a program if that was not done for the sources as they are, and tells the crates as they pass."""
    if is_noted(program):
        return
    with alone():
        if is_noted(program):
            return
        crates = crates_of(program)
        say("proving `%s`, %d crates: %s" % (program, len(crates), USUALLY))
        began = list(stamps(program))
        status, told = checked(program, crates)
        if status != 0 or not os.path.isfile(built(program)):
            sys.stderr.write(told)
            raise Failed("%s is not built" % program)
        if began == list(stamps(program)):
            note(program, sum_of(program))


def stamps(program):
    """What tells whether a source of a program was changed meanwhile."""
    for path in sources_of(program):
        yield path, os.stat(path).st_mtime_ns


def checked(program, crates):
    """Has `rt` prove, build and run a program, over no input: the status, and all that was said."""
    told, crate, process = [], None, start_rt(["run"], os.path.join(ROOT, "crates", program))
    try:
        for line in process.stdout:
            told.append(line.decode("utf-8", "replace"))
            named = CRATE.match(told[-1])
            if named:
                crate = named.group(1)
            elif told[-1].startswith(PROVED) and crate in crates:
                say("%d of %d: %s proved" % (1 + crates.index(crate), len(crates), crate))
        return process.wait(), "".join(told)
    finally:
        end_rt(process)


def proved_output(program, words, file):
    """What the proved program writes, as it writes it, for the input that is open as `file`. A program has no exit status to
    fail by, so one that says something on standard error has failed."""
    prove(program)
    process = subprocess.Popen([built(program)] + words, stdin=file, stdout=subprocess.PIPE, stderr=subprocess.PIPE)
    try:
        while True:
            chunk = os.read(process.stdout.fileno(), CHUNK)
            if not chunk:
                break
            yield chunk
        said = process.stderr.read().decode("utf-8", "replace").strip()
        if process.wait() != 0 or said:
            raise Failed(said or "%s ended with status %d" % (program, process.returncode))
    finally:
        if process.poll() is None:
            process.terminate()
            process.wait()


def unproved_output(program, words, octets, changes=()):
    """What the program writes for these octets, made with no proof from the code as it is, or with these changes in it."""
    with tempfile.TemporaryDirectory(prefix="bench-") as copy:
        copy_crates(copy, ("src",))
        edits.make(changes, copy)
        with tempfile.TemporaryFile() as file:
            file.write(octets)
            file.seek(0)
            folder = os.path.join(copy, "crates", program)
            process = start_rt(["try", *LIMITS, "--", *words], folder, stdin=file, stderr=subprocess.PIPE)
            try:
                wrote, said = process.communicate()
            finally:
                end_rt(process)
    said = said.decode("utf-8", "replace")
    ran = TRIED.match(said)
    if process.returncode != 0 or not ran:
        raise Failed("%s does not run so:\n%s" % (program, said.strip()))
    if ran.group(1):
        raise Failed(ran.group(1).strip())
    return wrote


def output(program, words, file, unproved):
    if unproved:
        say("NOT PROVED: `%s` is made from the code as it is, and nothing is proved of it" % program)
        return iter([unproved_output(program, words, file.read())])
    return proved_output(program, words, file)


if __name__ == "__main__":
    # The programs named were proved and built just now, by `rt ci`.
    for name in sys.argv[1:]:
        note(name, sum_of(name))
