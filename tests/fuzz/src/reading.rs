//! A second reply reader, written from document 01 ('The reply reader', 'Who causes which refusal') and
//! document 02's request 2026-02 apart from the proved one: what `station_step` must answer from any slots, and
//! what it must leave in them; and the payloads that `station_payload` joins.

use crate::answers::header::header;

/// The slots of a position and of a step.
pub const POSITION: usize = 134;
pub const TOKEN: usize = 11;

// The layout of a position, which is the library's own: six numbers, then for each of 128 columns its
// type's code above its length.
const PLACE: usize = 0;
const COUNT: usize = 1;
const COLUMNS_LEFT: usize = 2;
const CELLS_LEFT: usize = 3;
const OVER: usize = 4;
pub const PACKET: usize = 5;
const FIRST_TYPE: usize = 6;
const MOST_COLUMNS: u64 = 128;

const NOT_A_REPLY: u8 = 23;
const CUT: u8 = 24;
const UNKNOWN_TOKEN: u8 = 25;
pub const WRONG: u8 = 26;
const TOO_MANY_COLUMNS: u8 = 27;
const NO_COLUMNS: u8 = 28;
const NOT_NEXT: u8 = 33;
const END_WRONG: u8 = 34;

/// The bytes of a packet's header.
pub const HEADER: usize = 8;

const MAX: u64 = 0xFFFF;
const NULL_TOTAL: u64 = u64::MAX;
const UNKNOWN_TOTAL: u64 = u64::MAX - 1;

pub type Position = [u64; POSITION];
pub type Token = [u64; TOKEN];
pub type Read<T> = Result<T, u8>;

/// The position of a reader that has read nothing: in the first packet, after its header.
pub fn fresh() -> Position {
    let mut position = [0; POSITION];
    position[PACKET] = 1;
    position[PLACE] = HEADER as u64;
    position
}

/// The token at a position, which is then after it; none at the end. Else the position is kept.
pub fn step(lent: &[u8], position: &mut Position) -> Read<Option<Token>> {
    let mut cursor = Cursor::first(lent)?;
    cursor.go_to(position[PACKET], position[PLACE])?;
    must(stands(position), CUT)?;
    if position[OVER] == 1 {
        return cursor.close().map(|()| None);
    }
    let token = token_at(&mut cursor, position)?;
    move_on(position, &token);
    position[PACKET] = cursor.packet;
    position[PLACE] = cursor.place();
    Ok(Some(token))
}

/// The payloads of the packets joined, where the last one ends them.
pub fn payload(lent: &[u8]) -> Read<Vec<u8>> {
    let mut cursor = Cursor::first(lent)?;
    let mut joined = Vec::new();
    loop {
        joined.extend(&lent[cursor.at..cursor.end]);
        if cursor.is_over() {
            return Ok(joined);
        }
        cursor.read_on()?;
    }
}

/// Whether a reader can hold these numbers and types.
fn stands(position: &Position) -> bool {
    let [_, count, columns_left, cells_left, over, ..] = *position;
    let possible =
        count <= MOST_COLUMNS && columns_left <= count && cells_left <= count && over <= 1;
    possible && (0..count - columns_left).all(|column| is_type(held(position, column)))
}

/// The slot of a column's type.
fn held(position: &Position, column: u64) -> u64 {
    position[FIRST_TYPE + column as usize]
}

fn is_type(slot: u64) -> bool {
    let (code, limit) = (slot >> 16, slot & 0xFFFF);
    match code {
        0x26 => matches!(limit, 1 | 2 | 4 | 8),
        0xE7 => (1..=8000).contains(&limit) || limit == MAX,
        0xA7 | 0xA5 => limit == MAX,
        _ => false,
    }
}

fn token_at(cursor: &mut Cursor, position: &Position) -> Read<Token> {
    let count = position[COUNT];
    if position[COLUMNS_LEFT] > 0 {
        return column(cursor);
    }
    if position[CELLS_LEFT] > 0 {
        return cell(cursor, held(position, count - position[CELLS_LEFT]));
    }
    match cursor.number(1)? {
        0x81 => {
            let columns = cursor.number(2)?;
            must(columns <= MOST_COLUMNS, TOO_MANY_COLUMNS)?;
            Ok(token(&[0x81, columns]))
        }
        0xD1 => {
            must(count > 0, NO_COLUMNS)?;
            Ok(token(&[0xD1]))
        }
        0xFD => Ok(token(&[0xFD, cursor.number(2)?, cursor.number(2)?, cursor.number(8)?])),
        kind @ (0xAA | 0xAB) => message(cursor, kind),
        _ => Err(UNKNOWN_TOKEN),
    }
}

/// The position after a token, but for its packet and place.
fn move_on(position: &mut Position, token: &Token) {
    match token[0] {
        0x81 => {
            position[COUNT] = token[1];
            position[COLUMNS_LEFT] = token[1];
        }
        0x01 => {
            let column = position[COUNT] - position[COLUMNS_LEFT];
            position[FIRST_TYPE + column as usize] = token[3] << 16 | token[4];
            position[COLUMNS_LEFT] -= 1;
        }
        0xD1 => position[CELLS_LEFT] = position[COUNT],
        0x02 => position[CELLS_LEFT] -= 1,
        0xFD => {
            position[COUNT] = 0;
            position[OVER] = 1 - token[1] % 2;
        }
        _ => {}
    }
}

fn column(cursor: &mut Cursor) -> Read<Token> {
    let (user, flags) = (cursor.number(4)?, cursor.number(2)?);
    let [code, limit, collation, collation_length] = type_info(cursor)?;
    let units = cursor.number(1)?;
    let [name, length] = cursor.part(2 * units)?;
    Ok(token(&[0x01, user, flags, code, limit, collation, collation_length, name, length]))
}

/// A type: its code, its length, and its collation's start and length.
pub fn type_info(cursor: &mut Cursor) -> Read<[u64; 4]> {
    let code = cursor.number(1)?;
    must(matches!(code, 0x26 | 0xE7 | 0xA7 | 0xA5), WRONG)?;
    let limit = cursor.number(if code == 0x26 { 1 } else { 2 })?;
    must(is_type(code << 16 | limit), WRONG)?;
    let [start, length] = cursor.part(if matches!(code, 0xE7 | 0xA7) { 5 } else { 0 })?;
    Ok([code, limit, start, length])
}

/// A cell of a column's type: null, a number, a part, or the part of all chunks.
pub fn cell(cursor: &mut Cursor, held: u64) -> Read<Token> {
    let (code, limit) = (held >> 16, held & 0xFFFF);
    let (case, value) = match (code, limit) {
        (0x26, width) => integer(cursor, width)?,
        (_, MAX) => chunks(cursor, code == 0xE7)?,
        (_, most) => bounded(cursor, most)?,
    };
    Ok(token(&[0x02, case, value[0], value[1]]))
}

type Value = (u64, [u64; 2]);
const NULL: Value = (0, [0, 0]);

/// The bits of an int64_t; one byte has no sign.
fn integer(cursor: &mut Cursor, width: u64) -> Read<Value> {
    let size = cursor.number(1)?;
    must(size == 0 || size == width, WRONG)?;
    if size == 0 {
        return Ok(NULL);
    }
    let number = cursor.number(width)?;
    let unused = 64 - 8 * width as u32;
    let signed = ((number << unused) as i64 >> unused) as u64;
    Ok((1, [if width == 1 { number } else { signed }, 0]))
}

fn bounded(cursor: &mut Cursor, most: u64) -> Read<Value> {
    let size = cursor.number(2)?;
    if size == MAX {
        return Ok(NULL);
    }
    must(size % 2 == 0 && size <= most, WRONG)?;
    Ok((2, cursor.part(size)?))
}

/// A total, then chunks until one of no bytes.
fn chunks(cursor: &mut Cursor, even: bool) -> Read<Value> {
    let total = cursor.number(8)?;
    if total == NULL_TOTAL {
        return Ok(NULL);
    }
    let known = total != UNKNOWN_TOTAL;
    must(!(known && even && total % 2 == 1), WRONG)?;
    let (start, mut joined) = (cursor.start(), 0);
    loop {
        let size = cursor.number(4)?;
        must(!(even && size % 2 == 1), WRONG)?;
        must(!known || joined + size <= total, WRONG)?;
        if size == 0 {
            break;
        }
        cursor.part(size)?;
        joined += size;
    }
    must(!known || joined == total, WRONG)?;
    Ok((3, [start, cursor.start() - start]))
}

/// ERROR and INFO: the length counts what follows it, of which 14 bytes are no text.
fn message(cursor: &mut Cursor, kind: u64) -> Read<Token> {
    let length = cursor.number(2)?;
    must(length >= 14 && length % 2 == 0, WRONG)?;
    let mut units = (length - 14) / 2;
    let (number, state, class) = (cursor.number(4)?, cursor.number(1)?, cursor.number(1)?);
    let mut texts = [[0; 2]; 3];
    for (text, (size, names_after)) in texts.iter_mut().zip([(2, 2), (1, 1), (1, 0)]) {
        let count = cursor.number(size)?;
        must(count <= units && units - count <= 255 * names_after, WRONG)?;
        units -= count;
        *text = cursor.part(2 * count)?;
    }
    let line = cursor.number(4)?;
    let [[text, text_length], [server, server_length], [procedure, procedure_length]] = texts;
    let fields = [kind, number, state, class, line, text, text_length, server, server_length];
    Ok(token(&[&fields[..], &[procedure, procedure_length]].concat()))
}

/// The slots of a token: its fields, then 0.
fn token(fields: &[u64]) -> Token {
    let mut token = [0; TOKEN];
    token[..fields.len()].copy_from_slice(fields);
    token
}

pub fn must(holds: bool, number: u8) -> Read<()> {
    if holds { Ok(()) } else { Err(number) }
}

/// A place in packets, from which fields are taken. A header is tested where its packet's first byte is
/// needed; a part's start counts payload bytes.
pub struct Cursor<'a> {
    lent: &'a [u8],
    /// The packet's number from 1, and its end bit.
    packet: u64,
    ended: bool,
    /// Where the packet's payload begins and ends, and the next byte, in the lent bytes.
    first: usize,
    end: usize,
    at: usize,
    /// The payload bytes of the packets before it.
    before: u64,
}

impl<'a> Cursor<'a> {
    /// At the first payload byte of a reply.
    fn first(lent: &'a [u8]) -> Read<Self> {
        let mut cursor = Self { lent, packet: 0, ended: false, first: 0, end: 0, at: 0, before: 0 };
        cursor.enter()?;
        Ok(cursor)
    }

    /// At the start of bytes without packets.
    pub fn body(lent: &'a [u8]) -> Self {
        Self { lent, packet: 1, ended: true, first: 0, end: lent.len(), at: 0, before: 0 }
    }

    /// Goes to the next packet's payload, where its header passes.
    fn enter(&mut self) -> Read<()> {
        let rest = &self.lent[self.end..];
        let head = header(rest)?;
        let [kind, _, length, _, number, _] = head.fields;
        let within = (HEADER as u64 + 1..=rest.len() as u64).contains(&length);
        must(kind == 0x04 && within, NOT_A_REPLY)?;
        must(number == (self.packet + 1) % 256, NOT_NEXT)?;
        self.before += (self.end - self.first) as u64;
        self.packet += 1;
        self.ended = head.end_of_message;
        self.first = self.end + HEADER;
        self.at = self.first;
        self.end += length as usize;
        Ok(())
    }

    fn is_over(&self) -> bool {
        self.ended && self.end == self.lent.len()
    }

    /// Past the packet's payload.
    fn read_on(&mut self) -> Read<()> {
        must(!self.is_over(), CUT)?;
        must(!self.ended && self.end < self.lent.len(), END_WRONG)?;
        self.enter()
    }

    /// To a packet and a place in it, counted from its first byte, with the headers up to it tested.
    fn go_to(&mut self, packet: u64, place: u64) -> Read<()> {
        must(packet > 0, CUT)?;
        while self.packet < packet {
            must(!self.ended && self.end < self.lent.len(), CUT)?;
            self.enter()?;
        }
        let length = HEADER + self.end - self.first;
        must((HEADER as u64..=length as u64).contains(&place), CUT)?;
        self.at = self.first + place as usize - HEADER;
        Ok(())
    }

    /// After the last DONE: no byte of the payload is left, and no packet.
    fn close(mut self) -> Read<()> {
        must(self.at == self.end, WRONG)?;
        if self.is_over() {
            return Ok(());
        }
        self.read_on()?;
        Err(WRONG)
    }

    /// The place in the packet, counted from its first byte.
    fn place(&self) -> u64 {
        (HEADER + self.at - self.first) as u64
    }

    /// The place in the payload.
    pub fn start(&self) -> u64 {
        self.before + (self.at - self.first) as u64
    }

    /// To a place of bytes without packets, which may be one that was passed.
    pub fn skip_to(&mut self, place: u64) -> Read<()> {
        must(place <= self.end as u64, CUT)?;
        self.at = place as usize;
        Ok(())
    }

    /// The bytes that are left in the packet.
    pub fn left(&self) -> u64 {
        (self.end - self.at) as u64
    }

    /// Start and length of so many bytes.
    pub fn part(&mut self, size: u64) -> Read<[u64; 2]> {
        let start = self.start();
        self.take(size, |_| {})?;
        Ok([start, size])
    }

    pub fn number(&mut self, size: u64) -> Read<u64> {
        let (mut number, mut place) = (0, 0);
        self.take(size, |bytes| {
            for byte in bytes {
                number |= u64::from(*byte) << (8 * place);
                place += 1;
            }
        })?;
        Ok(number)
    }

    /// So many bytes, packet by packet.
    fn take(&mut self, mut size: u64, mut each: impl FnMut(&[u8])) -> Read<()> {
        while size > 0 {
            if self.left() == 0 {
                self.read_on()?;
            }
            let taken = size.min(self.left());
            let next = self.at + taken as usize;
            each(&self.lent[self.at..next]);
            self.at = next;
            size -= taken;
        }
        Ok(())
    }
}
