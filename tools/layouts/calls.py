"""The body of an RPC request: stored procedure calls, each with its parameters.

Where the call reader's rules are broken there is a fault with its number; the first one is where that reader stops.
"""
from .fields import Unread, bits, counted_text, many
from .refusals import IN_CALL, IN_PARAMETERS
from .requests import read_headers
from .values import read_type, read_value

BY_NUMBER = 0xFFFF  # in the place of a name's length
PROCEDURES = {1: "sp_cursor", 2: "sp_cursoropen", 3: "sp_cursorprepare", 4: "sp_cursorexecute",
              5: "sp_cursorprepexec", 6: "sp_cursorunprepare", 7: "sp_cursorfetch", 8: "sp_cursoroption",
              9: "sp_cursorclose", 10: "sp_executesql", 11: "sp_prepare", 12: "sp_execute", 13: "sp_prepexec",
              14: "sp_prepexecrpc", 15: "sp_unprepare"}
EXECUTE_SQL = 10
OPTION_BITS = {0x0001: "recompile", 0x0002: "no metadata", 0x0004: "reuse the metadata"}
NEXT_CALL = {0xFE: ("NoExecFlag", "another call follows, which is not run"), 0xFF: ("BatchFlag", "another call follows")}
STATUS_BITS = {0x01: "by reference", 0x02: "default value", 0x08: "encrypted"}
ENCRYPTED = 0x08


def read_calls(f):
    """Calls, one after another; the call reader reads one."""
    f.rules = IN_CALL
    read_headers(f)
    procedure, count = read_call(f)
    if procedure == EXECUTE_SQL and count == 0:
        f.fault(IN_PARAMETERS.cut, "sp_executesql without a parameter", len(f.held))
    while f.left():
        field, words = NEXT_CALL[f.held[f.at]]
        f.line("RPC", 0, words)
        f.number(field, 1, lambda flag: f"{flag:02X}, {words}")
        f.fault(f.rules.type, "the call reader does not read a second call", label="note")
        if f.left():
            read_call(f)


def read_call(f):
    """A procedure, its options and its parameters, until another call or the end; the answer is the procedure's number,
    None where it has a name, and how many parameters there are."""
    line, number = f.line("RPC", 0, "procedure"), None
    units = f.number("NameLenProcID", 2, lambda units: "a number follows" if units == BY_NUMBER else many(units, "unit"))
    if units == BY_NUMBER:
        number = f.number("ProcID", 2, procedure_words)
        line.comment = f"procedure {procedure_words(number)}"
    else:
        line.comment = f"procedure: {many(units, 'unit')}, {f.text('ProcName', units)}"
    line = f.line("RPC", 0, "options")
    line.comment = f"options {option_words(f.number('OptionFlags', 2, option_words))}"
    f.rules, count = IN_PARAMETERS, 0
    while f.left() and f.held[f.at] not in NEXT_CALL:
        read_parameter(f, count)
        count += 1
    return number, count


def procedure_words(number):
    return f"{number}, {PROCEDURES[number]}" if number in PROCEDURES else str(number)


def option_words(flags):
    return ", ".join([f"{flags:04X}", *bits(flags, OPTION_BITS, 4)])


def status_words(status):
    return ", ".join([f"{status:02X}", *bits(status, STATUS_BITS, 2)])


def read_parameter(f, place):
    """A parameter; those of a call are counted from 0."""
    counted_text(f, "RPC", "ParamName", f"parameter {place}", 1, indent=2)
    line = f.line("RPC", 4, "status")
    status = f.number("StatusFlags", 1, status_words)
    line.comment = f"status {status_words(status)}"
    if status & ENCRYPTED:
        f.fault(f.rules.type, "an encrypted parameter, which the call reader does not read", label="note")
        raise Unread
    code, limit, words = read_type(f)
    line.comment = ", ".join([line.comment, *words])
    read_value(f, 4, code, limit)
