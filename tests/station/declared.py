"""What declares the exports, each read as a list of functions and constants: include/station.h, include/station.rs, the
crate `station`, and the symbols of the library.

A function is its name and its parameters, each a name and a kind: `bytes` (a slice that is read), `buffer` (bytes that
are written), `slots` (numbers that are written), or the type of a number as Rust has it (u8, u16, u32, u64, usize, bool).
"""
import re
import subprocess

C_NUMBERS = {"uint8_t": "u8", "uint16_t": "u16", "uint32_t": "u32", "uint64_t": "u64", "size": "usize", "bool": "bool"}
C_SLICES = {"const uint8_t *": "bytes", "uint8_t *": "buffer", "uint64_t *": "slots"}
RATTLE_SLICES = {"&[u8]": "bytes", "&mut [u8]": "buffer", "&mut [u64]": "slots"}
RUST_SLICES = {"*const u8": "bytes", "*mut u8": "buffer", "*mut u64": "slots"}

C_FUNCTION = re.compile(r"^(\w+) (station_\w+)\(([^)]*)\);", re.M)
C_CONSTANT = re.compile(r"^#define (STATION_\w+) (\S+(?: ?\S+)*?)(?: */\*.*)?$", re.M)
RATTLE_EXPORT = re.compile(r'^#\[unsafe\(no_mangle\)\]\npub extern "C" fn (\w+)\(([^)]*)\) -> (\w+)', re.M)
RATTLE_CONSTANT = re.compile(r"^ *(?:pub )?const (\w+): \w+ = ([0-9A-Fa-fx_]+);", re.M)
RATTLE_CASE = re.compile(r"^    ([A-Z]\w*) = (\w+),$", re.M)
RUST_FUNCTION = re.compile(r"^    pub fn (\w+)\(([^)]*)\) -> (\w+);", re.M)
RUST_CONSTANT = re.compile(r"^pub const (\w+): (\w+) = ([^;]+);", re.M)


class Wrong(Exception):
    """A declaration that cannot be read."""


def number(text):
    """The value of a constant."""
    if text in ("(~(uint64_t)0)", "u64::MAX"):
        return 2**64 - 1
    return int(text.replace("_", ""), 0)


def words(parameters):
    return [" ".join(each.split()) for each in parameters.split(",") if each.strip()]


def joined(name, declared, slices, numbers):
    """Parameters with each pointer and the length after it as one slice."""
    found, waiting = [], None
    for parameter, kind in declared:
        if waiting:
            if (parameter, kind) != (f"{waiting}_len", "size"):
                raise Wrong(f"{name}: {parameter} follows the pointer {waiting}, and must be {waiting}_len")
            waiting = None
        elif kind in slices:
            found.append((parameter, slices[kind]))
            waiting = parameter
        elif kind in numbers:
            found.append((parameter, numbers[kind]))
        else:
            raise Wrong(f"{name}: {parameter} has the type {kind}, which no export takes")
    if waiting:
        raise Wrong(f"{name}: no length follows the pointer {waiting}")
    return found


def of_header(text):
    """Functions and constants of the C header."""
    functions = {}
    for answer, name, parameters in C_FUNCTION.findall(text):
        declared = []
        for word in words(parameters):
            kind, parameter = re.fullmatch(r"(.*[ *])(\w+)", word).groups()
            declared.append((parameter, "size" if kind.strip() == "size_t" else kind.strip()))
        if answer != "int64_t":
            raise Wrong(f"{name}: answers {answer}, and must answer int64_t")
        functions[name] = joined(name, declared, C_SLICES, C_NUMBERS)
    constants = {name: number(value) for name, value in C_CONSTANT.findall(text)}
    return functions, constants


def of_rust(text):
    """Functions and constants of the Rust declarations."""
    functions = {}
    for name, parameters, answer in RUST_FUNCTION.findall(text):
        declared = [tuple(word.split(": ")) for word in words(parameters)]
        declared = [(parameter, "size" if kind == "usize" else kind) for parameter, kind in declared]
        if answer != "i64":
            raise Wrong(f"{name}: answers {answer}, and must answer i64")
        functions[name] = joined(name, declared, RUST_SLICES, {"size": "usize", **{kind: kind for kind in C_NUMBERS.values()}})
    constants = {name: number(value) for name, _, value in RUST_CONSTANT.findall(text)}
    return functions, constants


def of_crate(folder):
    """Functions of the crate `station`, of all its files."""
    functions = {}
    for file in sorted(folder.glob("*.rt")):
        for name, parameters, answer in RATTLE_EXPORT.findall(file.read_text()):
            declared = [tuple(word.split(": ")) for word in words(parameters)]
            if answer != "i64":
                raise Wrong(f"{name}: answers {answer} in {file.name}, and must answer i64")
            functions[name] = [(parameter, RATTLE_SLICES.get(kind, kind)) for parameter, kind in declared]
    return functions


def constants_of(file):
    """The constants of a file in Rattle, by name, and the numbers of its enums' cases, whose names are spelled as constants'."""
    text = file.read_text()
    found = {re.sub(r"(?<=[a-z0-9])(?=[A-Z])|(?<=A)(?=[A-Z][a-z])", "_", name).upper(): number(value)
             for name, value in RATTLE_CASE.findall(text)}
    return found | {name: number(value) for name, value in RATTLE_CONSTANT.findall(text)}


def symbols(library):
    """The functions that the library defines for others."""
    said = subprocess.run(["nm", "--defined-only", library], check=True, capture_output=True, text=True).stdout
    return set(re.findall(r"^[0-9a-f]+ T (\w+)$", said, re.M))
