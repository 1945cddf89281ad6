"""The stack of a compiled program's functions, worked out from its code: what each puts there, and what those that it calls do."""
import re
import shutil
import subprocess

from programs import Failed, built

# What a public function may take of the board's 4 KiB of stack, the red zone counted; the second call less.
LIMIT, LIMIT_OF = 2048, {"second": 1200}
# The controller's calls, and of each the function of the program `cost` that it is; the small ones are put into their caller.
PROGRAM = "cost"
CALLS = {
    "octet": "controller_calls::octet", "second": "controller_calls::second", "offer": "controller_calls::offer",
    "line_idle": "cost::small", "fresh": "cost::small", "fresh_old": "cost::small"}
# The programs that between them make the public calls.
PROGRAMS = (PROGRAM, "cases", "listing")
RETURN_ADDRESS, REGISTER, RED_ZONE = 8, 8, 128
WORD = 1 << 64

HEAD = re.compile(r"[0-9a-f]+ <(.*)>:$")
# an instruction in the spelling of GNU's objdump or of LLVM's: its name, and what it works on
INSTRUCTION = re.compile(r" *[0-9a-f]+:\s+([a-z]\w*)\s*(.*?)\s*(?:\s# .*)?$")
# a place inside a function is none: its name has a number behind a plus
TO_FUNCTION = re.compile(r"(?:0x)?[0-9a-f]+ <(.*)>$")
ON_STACK = re.compile(r"(?:\$(-?(?:0x[0-9a-f]+|\d+)), ?)?.*%rsp$")
# what only gives stack back, at a function's end
GIVES_BACK = re.compile(r"(?:mov|movq|lea|leaq) .*\(?%rbp\)?, ?%rsp$")


def instructions(program):
    """The functions of a program as they are compiled, each with its instructions: names and operands."""
    for name in ("objdump", "llvm-objdump"):
        if shutil.which(name):
            read = subprocess.run([name, "-d", "--no-show-raw-insn", built(program)], stdout=subprocess.PIPE, stderr=subprocess.DEVNULL)
            if read.returncode == 0:
                break
    else:
        raise Failed("objdump is wanted, to read the compiled code: GNU's for x86-64, or LLVM's")
    functions, found = {}, None
    for line in read.stdout.decode().splitlines():
        head, instruction = HEAD.match(line), INSTRUCTION.match(line)
        if head:
            found = functions.setdefault(head.group(1), [])
        elif instruction and found is not None:
            found.append(instruction.groups())
    return functions


def moved(name, operands):
    """By how many octets an instruction lowers the stack."""
    if name in ("push", "pushq"):
        return REGISTER
    on_stack = ON_STACK.match(operands)
    if not on_stack or name.startswith(("cmp", "test")) or GIVES_BACK.match("%s %s" % (name, operands)):
        return 0
    if on_stack.group(1) and re.match(r"(?:sub|add|and)q?$", name):
        number = int(on_stack.group(1), 0) % WORD
        if name.startswith("sub"):
            return number
        # below zero: an addition that lowers it, or the places that it is rounded down by
        return WORD - number if number > WORD // 2 else 0
    raise Failed("what this does to the stack is not known: %s %s" % (name, operands))


def limit(call):
    """The limit of one of the controller's calls."""
    return LIMIT_OF.get(call, LIMIT)


class Program:
    """The functions of a program: what each puts on the stack, its return address counted, and which it calls. Of one that does
    with the stack what is not known there is the reason."""

    def __init__(self, name):
        self.frames, self.called, self.unknown = {}, {}, {}
        functions = instructions(name)
        for function, code in functions.items():
            try:
                self.frames[function] = RETURN_ADDRESS + sum(moved(*each) for each in code)
            except Failed as reason:
                self.unknown[function] = str(reason)
            to = (TO_FUNCTION.match(operands) for name, operands in code if name.startswith(("call", "j")))
            self.called[function] = {each.group(1) for each in to if each and each.group(1) in functions} - {function}

    def deepest(self, function, above=()):
        """The stack of a function with all that it calls, the red zone counted, and the way to where it is deepest."""
        if function in self.unknown:
            raise Failed("%s: %s" % (function, self.unknown[function]))
        if function not in self.frames:
            raise Failed("%s is no function of the compiled program, so its stack is not known" % function)
        if function in above:
            raise Failed("%s comes to itself again, so its stack is not known" % function)
        ways = [self.deepest(each, above + (function,)) for each in self.called[function]]
        octets, way = max(ways, default=(RED_ZONE, []))
        return self.frames[function] + octets, [function] + way
