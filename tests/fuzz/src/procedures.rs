//! Stored procedure calls: an input is the number of the asked parameter and a request. The answers are held
//! against a reader written here from MS-TDS (2.2.6.6, RPC Request) and document 02's requests 2026-01 and
//! 2026-05, apart from the proved one. Types and values are those of a reply's columns and cells, which the second reply
//! reader reads.

use crate::compact::Draw;
use crate::compare::Check;
use crate::hex::hex;
use crate::reading::{Cursor, Read, WRONG, cell, must, type_info};
use crate::station::station_parse_rpc_request;
use crate::wall::Wall;

const SLOTS: usize = 19;
const NOT_THERE: [u64; 12] = [0; 12];
const HEAD_CUT: u8 = 29;
const PARAMETER_CUT: u8 = 30;
const NOT_READ: u8 = 31;
const HEADERS_TOO_SMALL: u8 = 35;
/// The bytes of the headers' length, which it counts.
const OWN_LENGTH: u64 = 4;

const BY_NUMBER: u64 = 0xFFFF;
const EXECUTE_SQL: u64 = 10;
const NO_EXEC_FLAG: u64 = 0xFE;
const ENCRYPTED: u64 = 0x08;
const NO_STATEMENT: [u64; 2] = [u64::MAX, 0];

/// A call's slots: the procedure and the flags, the statement, and each parameter.
#[derive(Default)]
struct Call {
    head: [u64; 5],
    statement: [u64; 2],
    parameters: Vec<Vec<u64>>,
    /// The places after the head and after each parameter.
    ends: Vec<usize>,
}

/// Compares the number that the input asks for, and of a call that is read every number up to the first
/// that is not there.
pub fn compare_one(input: &[u8], wall: &mut Wall) -> Vec<Check> {
    let mut draw = Draw::new(input);
    let asked = draw.value();
    let body = wall.lend(draw.rest());
    let mut call = Call::default();
    let read = call.read(body);
    let mut check = Check::new("station_parse_rpc_request");
    let last = read.map_or(0, |()| call.parameters.len() as u64 + 1);
    for number in (0..last).chain([asked]) {
        let answer = read.map(|()| (0, call.slots(number)));
        let shown = || format!("parameter {number} of {}", hex(body));
        check.slots(shown, &answer, SLOTS, |out| station_parse_rpc_request(body, number, out));
    }
    vec![check]
}

/// The places of an input between which its whole parameters stand.
pub fn ends(input: &[u8]) -> Vec<usize> {
    let mut draw = Draw::new(input);
    draw.value();
    let body = draw.rest();
    let mut call = Call::default();
    let _ = call.read(body);
    call.ends.iter().map(|end| end + input.len() - body.len()).collect()
}

impl Call {
    fn read(&mut self, body: &[u8]) -> Read<()> {
        let mut cursor = Cursor::body(body);
        self.head = head(&mut cursor)?;
        self.statement = NO_STATEMENT;
        self.ends.push(cursor.start() as usize);
        let executes = self.head[0] == 0 && self.head[3] == EXECUTE_SQL;
        while cursor.left() > 0 {
            let slots = parameter(&mut cursor)?;
            if executes && self.parameters.is_empty() {
                self.statement = value_bytes(&slots, cursor.start());
            }
            self.parameters.push(slots);
            self.ends.push(cursor.start() as usize);
        }
        must(!executes || !self.parameters.is_empty(), PARAMETER_CUT)
    }

    fn slots(&self, number: u64) -> Vec<u64> {
        let found = usize::try_from(number).ok().and_then(|number| self.parameters.get(number));
        [&self.head[..], &self.statement, found.map_or(&NOT_THERE[..], Vec::as_slice)].concat()
    }
}

/// ALL_HEADERS, over which its total length leads; NameLenProcID; OptionFlags.
fn head(cursor: &mut Cursor) -> Read<[u64; 5]> {
    let cut = |_| HEAD_CUT;
    let total = cursor.number(4).map_err(cut)?;
    must(total >= OWN_LENGTH, HEADERS_TOO_SMALL)?;
    procedure(cursor, total).map_err(cut)
}

/// NameLenProcID and OptionFlags, which stand at a place.
fn procedure(cursor: &mut Cursor, at: u64) -> Read<[u64; 5]> {
    cursor.skip_to(at)?;
    let units = cursor.number(2)?;
    if units == BY_NUMBER {
        return Ok([0, 0, 0, cursor.number(2)?, cursor.number(2)?]);
    }
    let [start, length] = cursor.part(2 * units)?;
    Ok([1, start, length, 0, cursor.number(2)?])
}

/// ParamMetaData and ParamLenData. The next call's flag stands where a name's length would.
fn parameter(cursor: &mut Cursor) -> Read<Vec<u64>> {
    let cut = |_| PARAMETER_CUT;
    let units = cursor.number(1).map_err(cut)?;
    must(units < NO_EXEC_FLAG, NOT_READ)?;
    let [name, length] = cursor.part(2 * units).map_err(cut)?;
    let status = cursor.number(1).map_err(cut)?;
    must(status & ENCRYPTED == 0, NOT_READ)?;
    let unread = |number| if number == WRONG { NOT_READ } else { PARAMETER_CUT };
    let info = type_info(cursor).map_err(unread)?;
    let [_, case, first, second, ..] = cell(cursor, info[0] << 16 | info[1]).map_err(cut)?;
    let value = if case == 1 { [case, first, 0, 0] } else { [case, 0, first, second] };
    Ok([[1, name, length, status], info, value].concat())
}

/// Start and length of a value's bytes, of a parameter that ends at a place.
fn value_bytes(slots: &[u64], end: u64) -> [u64; 2] {
    let (limit, value) = (slots[5], &slots[8..]);
    match value[0] {
        0 => [end, 0],
        1 => [end - limit, limit],
        _ => [value[2], value[3]],
    }
}
