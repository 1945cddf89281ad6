"""The instructions of a program, counted by valgrind."""
import os
import re
import shutil
import subprocess
import tempfile

from programs import Failed, built


def counted(program, octets, inside=None):
    """How many instructions a program takes over this input: all of them, or those from a function's entry to its return."""
    if not shutil.which("valgrind"):
        raise Failed("valgrind is wanted, to count instructions")
    with tempfile.TemporaryDirectory() as folder:
        out = os.path.join(folder, "out")
        words = ["valgrind", "--tool=callgrind", "--callgrind-out-file=" + out]
        words += ["--toggle-collect=" + inside] if inside else []
        subprocess.run(words + [built(program)], input=octets, stdout=subprocess.DEVNULL, stderr=subprocess.DEVNULL, check=True)
        with open(out, encoding="utf-8") as file:
            return int(re.search(r"^(?:summary|totals): (\d+)", file.read(), re.M).group(1))
