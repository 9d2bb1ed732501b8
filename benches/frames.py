"""The most stack that functions can have below their caller's, by a disassembly (`objdump -d --no-show-raw-insn`) for
x86-64.

A function's depth is followed from its entry along its jumps; a jump by a table keeps the depth to every place that is
reached by nothing else. What stands below the stack pointer (the red zone) counts, and so does each call's return
address. A change of the stack pointer that is not known here, a call by a pointer and recursion end the program."""

import re
import sys

FUNCTION = re.compile(r"^[0-9a-f]+ <(.+)>:$")
INSTRUCTION = re.compile(r"^ *([0-9a-f]+):\t(?:(?:notrack|bnd|rep|repz|repnz|lock|data16|cs) +)*(\S+) *(.*)$")
TARGET = re.compile(r"^([0-9a-f]+) <([^>+]+)(?:\+0x[0-9a-f]+)?>$")
ADDED = re.compile(r"^\$(-?)0x([0-9a-f]+),%rsp$")
BELOW = re.compile(r"-0x([0-9a-f]+)\(%rsp")
RETURN_ADDRESS = 8
# What ends a path, and what stands between paths.
ENDS = ("jmp", "ret", "ud2", "hlt")
PADDING = ("nop", "nopw", "nopl", "xchg", "int3")


def parsed(disassembly):
    """The instructions of each function: address, name, operands."""
    functions, name = {}, None
    for line in disassembly.splitlines():
        found = FUNCTION.match(line)
        if found:
            name = found[1]
            functions[name] = []
            continue
        found = INSTRUCTION.match(line)
        if found and name:
            functions[name].append((int(found[1], 16), found[2], found[3].split("#")[0].strip()))
    return functions


def change(name, operands):
    """By how much an instruction lowers the stack pointer."""
    if name in ("push", "pushf"):
        return 8
    if name in ("pop", "popf"):
        return -8
    found = ADDED.match(operands)
    if found and name in ("sub", "add"):
        amount = int(found[2], 16) * (-1 if found[1] else 1)
        return amount if name == "sub" else -amount
    if operands.endswith(",%rsp") and name not in ("cmp", "test"):
        sys.exit(f"a change of the stack pointer that is not followed: {name} {operands}")
    return 0


def follow(code, places, known, start, depth):
    """Notes the depth before each instruction that is reached from one."""
    waiting = [(start, depth)]
    while waiting:
        index, depth = waiting.pop()
        while known.setdefault(index, depth) == depth:
            address, name, operands = code[index]
            target = TARGET.match(operands)
            place = places.get(int(target[1], 16)) if target and name.startswith("j") else None
            if place is not None and place not in known:
                waiting.append((place, depth))
            depth += change(name, operands)
            index += 1
            if name in ENDS or index in known and known[index] == depth:
                break
        else:
            sys.exit(f"two depths at {code[index][0]:x}: {known[index]} and {depth}")


def depths(code):
    """Each instruction that can be reached, with the depth before it."""
    places = {address: index for index, (address, _, _) in enumerate(code)}
    known = {}
    follow(code, places, known, 0, RETURN_ADDRESS)
    for index, (address, name, _) in enumerate(code):
        if index in known or name in PADDING:
            continue
        by_table = [known[at] for at in known if code[at][1] == "jmp" and code[at][2].startswith("*")]
        if not by_table:
            sys.exit(f"nothing leads to {address:x}")
        follow(code, places, known, index, max(by_table))
    return [(code[index], depth) for index, depth in known.items()]


class Frames:
    def __init__(self, disassembly):
        self.functions = parsed(disassembly)
        self.found = {}
        self.outside = set()

    def below(self, function, chain=()):
        """The most bytes below the caller's stack pointer, the return address among them."""
        if function not in self.functions or function.endswith("@plt"):
            self.outside.add(function.removesuffix("@plt"))
            return RETURN_ADDRESS
        if function in chain:
            sys.exit(f"recursion: {' calls '.join([*chain, function])}")
        if function not in self.found:
            steps = depths(self.functions[function])
            self.found[function] = max(self.reach(function, (*chain, function), *step) for step in steps)
        return self.found[function]

    def reach(self, function, chain, instruction, depth):
        """The most bytes below the caller's stack pointer that an instruction leads to."""
        _, name, operands = instruction
        most = max([depth + change(name, operands), *(depth + int(below, 16) for below in BELOW.findall(operands))])
        target = TARGET.match(operands)
        if name == "call":
            if not target:
                sys.exit(f"{function}: a call by a pointer, {operands}")
            return max(most, depth + self.below(target[2], chain))
        if name.startswith("j") and target and target[2] != function:
            return max(most, depth - RETURN_ADDRESS + self.below(target[2], chain))
        return most
