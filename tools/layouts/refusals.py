"""The numbers of the reply reader's and the call reader's refusals; 18 is the program's. tools/reasons.py has their words."""
from typing import NamedTuple

HEADER_CUT, UNKNOWN_TYPE, TOO_LONG, NOT_A_REPLY, CUT, UNKNOWN_TOKEN, WRONG, COLUMNS, NO_COLUMNS = \
    8, 9, 18, 23, 24, 25, 26, 27, 28
CALL_CUT, PARAMETER_CUT, NOT_READ = 29, 30, 31
NOT_THE_NEXT, END_BIT_WRONG = 33, 34
HEADERS_TOO_SMALL = 35


class Rules(NamedTuple):
    """What a reader calls the holder of a type and of a value, and its numbers where a field is cut, a length in a value
    is wrong, and a type is not read."""
    token: str
    typed: str
    valued: str
    cut: int
    length: int
    type: int


IN_REPLY = Rules("ROW", "column", "cell", CUT, WRONG, WRONG)
IN_CALL = Rules("RPC", "parameter", "value", CALL_CUT, PARAMETER_CUT, NOT_READ)
IN_PARAMETERS = IN_CALL._replace(cut=PARAMETER_CUT)
