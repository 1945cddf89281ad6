"""Frames, written by the proved writers: the program `cases` is asked for them."""
import re
import tempfile

from programs import Failed, output


def frames_of(wanted, unproved=False):
    """The octets of each frame, as texts of two digits. `wanted` has for each a word of `cases`, `message`, `ack` or `nak`, and its
    octets, likewise: SEQ, and INFO or ERR."""
    with tempfile.TemporaryFile() as file:
        file.write("".join("frame\t%s %s\n" % (word, " ".join(octets).upper()) for word, octets in wanted).encode())
        file.seek(0)
        told = b"".join(output("cases", [], file, unproved)).decode().splitlines()
    return [octets_in(line) for line in told]


def octets_in(line):
    """What a case wrote; `x256 48` in it is 256 times 48."""
    written = re.search(r"\twritten \d+: (.*)", line)
    if not written:
        raise Failed("no frame: %s" % line.split("\t")[-1])
    found = re.findall(r"(?:x(\d+) )?([0-9A-F]{2})(?: |$)", written.group(1))
    return [octet for times, octet in found for _ in range(int(times or 1))]
