"""The header held against the library, the crates and the Rust file: `problems` says what differs, in a line each."""
import re

import declared

# Constants of the header and those of a crate: file, the header's prefix, and how a name there is made from one here.
BY_NAME = (
    ("crates/refusals/src/lib.rt", "", "{}"),
    ("crates/script/src/lib.rt", "RECORD_", "{}"),
    ("crates/response/src/lib.rt", "RECORD_", "{}"),
    ("crates/response/src/lib.rt", "TRANSACTION_", "TM_{}_XACT"),
    ("crates/packet/src/lib.rt", "STATUS_", "{}"),
    ("crates/token/src/lib.rt", "TOKEN_", "{}"),
)
# Cases of a match over bytes in a crate: file, the header's prefix, and the enum.
BY_CASE = (
    ("crates/packet/src/lib.rt", "PACKET_", "PacketType"),
    ("crates/token/src/lib.rt", "TYPE_", "SqlDataType"),
    ("crates/token/src/lib.rt", "VALUE_", "ColumnValue"),
)
OTHER_NAMES = {"MAXNULL": "NVARCHARMAXNULL"}
# A refusal whose name begins as those of packet types do.
NO_CASES = {"STATION_PACKET_SIZE"}
# One constant each.
ONE_EACH = (
    ("HEADER_BYTES", "crates/packet/src/lib.rt", "PACKET_HEADER_SIZE", 0),
    ("MOST_REPLY", "crates/response/src/faults.rt", "MOST_BYTES", 0),
    ("MOST_PACKETS", "crates/answer/src/scripts.rt", "PACKETS", 0),
    ("LEAST_PACKET_SIZE", "crates/packet/src/lib.rt", "LEAST_PACKET_SIZE", 0),
    ("MOST_PACKET_SIZE", "crates/packet/src/lib.rt", "MOST_PACKET_SIZE", 0),
    ("MOST_PAYLOAD", "crates/response/src/lib.rt", "MOST_PAYLOAD", 0),
    ("MOST_LABEL_TEXT", "crates/answer/src/labels.rt", "TEXT", 0),
    ("MOST_LABEL_VALUE", "crates/answer/src/labels.rt", "VALUE", 0),
    ("NULL_LABEL", "crates/station/src/labels.rt", "NULL_LABEL", 0),
    ("LOGIN_SLOTS", "crates/station/src/logins.rt", "LOGIN_SLOTS", 0),
    ("NO_BYTE", "crates/station/src/logins.rt", "NO_BYTE", 0),
    ("RPC_EXECUTESQL", "crates/rpc/src/lib.rt", "SP_EXECUTESQL", 0),
    ("POSITION_SLOTS", "crates/reader/src/lib.rt", "MAX_COLUMNS", 6),
    ("DONE_MORE", "crates/reader/src/lib.rt", "MORE", 0),
    ("DONE_ERROR", "crates/response/src/lib.rt", "DONE_ERROR", 0),
)


def names_differ(what, header, others):
    for name in sorted(set(header) - set(others)):
        yield f"{name}: in the header, and not in {what}"
    for name in sorted(set(others) - set(header)):
        yield f"{name}: in {what}, and not in the header"


def functions_differ(what, header, others):
    yield from names_differ(what, header, others)
    for name in header:
        if name in others and header[name] != others[name]:
            yield f"{name}: {shown(header[name])} in the header, {shown(others[name])} in {what}"


def shown(parameters):
    return "(" + ", ".join(f"{name}: {kind}" for name, kind in parameters) + ")"


def constants_differ(what, header, others):
    yield from names_differ(what, header, others)
    for name in header:
        if name in others and header[name] != others[name]:
            yield f"{name}: {header[name]} in the header, {others[name]} in {what}"


def cases(text, enum):
    """The bytes of an enum's cases, by the case's name in capitals, from `N => ..(Enum::Case)`."""
    found = re.findall(rf"^ *(\w+) => \w+\({enum}::(\w+)\),", text, re.M)
    return {name.upper(): declared.number(value) for value, name in found}


def plain(name):
    """A name without its underscores, as a case has it."""
    name = name.replace("_", "")
    return OTHER_NAMES.get(name, name)


def by_name(root, constants):
    for file, prefix, form in BY_NAME:
        there = declared.constants_of(root / file)
        for name, value in constants.items():
            other = form.format(name.removeprefix(f"STATION_{prefix}"))
            if name.startswith(f"STATION_{prefix}") and other in there and there[other] != value:
                yield f"{name}: {value} in the header, {there[other]} in {file}"


def by_case(root, constants):
    for file, prefix, enum in BY_CASE:
        there = cases((root / file).read_text(), enum)
        here = {plain(name.removeprefix(f"STATION_{prefix}")): value for name, value in constants.items()
                if name.startswith(f"STATION_{prefix}") and name not in NO_CASES}
        if not there:
            yield f"{file}: no cases of {enum} are found"
        yield from constants_differ(f"{file}, {enum}", here, there)


def one_each(root, constants):
    for name, file, other, more in ONE_EACH:
        there = declared.constants_of(root / file).get(other)
        if there is None or constants.get(f"STATION_{name}") != there + more:
            yield f"STATION_{name}: {constants.get(f'STATION_{name}')} in the header, {other} {there} in {file}"


def no_byte(root, constants):
    """The code takes a number for an acknowledgement where it is a byte (`u8::try_from`), so none is from the next one on."""
    if "u8::try_from(ack).ok()" not in (root / "crates/station/src/build.rt").read_text():
        yield "STATION_NO_ACK: crates/station/src/build.rt does not go by whether an acknowledgement is a byte"
    if constants.get("STATION_NO_ACK") != 0xFF + 1:
        yield f"STATION_NO_ACK: {constants.get('STATION_NO_ACK')} in the header, not the least number that is no byte"


def covered(root, constants):
    """Constants of a crate that the header has to name, and does not."""
    for file, prefix, form, left_out in (
        ("crates/refusals/src/lib.rt", "", "{}", set()),
        ("crates/script/src/lib.rt", "RECORD_", "{}", {"HEAD", "HEAD_LAST"}),
    ):
        for other in declared.constants_of(root / file):
            if other not in left_out and f"STATION_{prefix}{form.format(other)}" not in constants:
                yield f"{other} of {file}: not in the header"


def problems(root, library):
    header, constants = declared.of_header((root / "include/station.h").read_text())
    rust, rust_constants = declared.of_rust((root / "include/station.rs").read_text())
    yield from functions_differ("include/station.rs", header, rust)
    yield from constants_differ("include/station.rs", constants, rust_constants)
    yield from functions_differ("crates/station", header, declared.of_crate(root / "crates/station/src"))
    yield from names_differ("the library", header, declared.symbols(library))
    for compared in (by_name, by_case, one_each, no_byte, covered):
        yield from compared(root, constants)
