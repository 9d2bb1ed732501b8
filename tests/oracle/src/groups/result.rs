//! Scripts: the reply builder under its four names, the room for its reply, the fit check.

use super::Size;
use crate::answers::reply::{accepted, packet, rust_packet};
use crate::compare::Check;
use crate::hex::hex;
use crate::inputs::misfit;
use crate::inputs::script::{Shape, WIDE, damaged, fitting_value, of_shape, random_script};
use crate::random::Random;
use crate::refusal::Answer;
use crate::script::Script;
use crate::script::fit::{first, misfits};
use crate::script::records::*;
use crate::station::*;
use crate::utf16;

/// The slots of a misfit: kind, set, row, column.
const SLOTS: usize = 4;

type Builder = fn(&[u8], &mut [u8]) -> i64;

struct Results {
    builders: [(Check, Builder); 4],
    room: Check,
    fit: Check,
}

pub fn compare(size: Size) -> Vec<Check> {
    let mut results = Results::new();
    let mut random = size.random("result");
    results.every_order(size.count(3, 4));
    results.every_payload_length(&mut random);
    results.values_and_types();
    results.integers();
    results.chunk_cuts();
    results.infos();
    results.names_and_chunks();
    results.names_with_pairs();
    results.columns(&mut random);
    results.several_misfits();
    results.several_sets();
    results.classification();
    results.other_planes();
    results.result_lengths(&mut random);
    results.cases_of_12();
    results.long_scripts();
    results.wrong_bytes(size);
    results.random_scripts(&mut random, size.count(30_000, 500_000));
    results.checks()
}

/// One script, for tests/fuzz.
#[allow(dead_code)]
pub fn compare_one(script: &[u8]) -> Vec<Check> {
    let mut results = Results::new();
    results.script(script);
    results.checks()
}

impl Results {
    fn new() -> Self {
        Self {
            builders: [
                (Check::new("station_build_query_results"), station_build_query_results),
                (Check::new("station_build_query_result"), station_build_query_result),
                (
                    Check::new("station_build_query_result_with_trailing_info"),
                    station_build_query_result_with_trailing_info,
                ),
                (
                    Check::new("station_build_query_result_with_extras"),
                    station_build_query_result_with_extras,
                ),
            ],
            room: Check::new("station_room"),
            fit: Check::new("station_fit"),
        }
    }

    fn checks(self) -> Vec<Check> {
        let builders = self.builders.into_iter().map(|(check, _)| check);
        builders.chain([self.room, self.fit]).collect()
    }

    fn records(&mut self, script: &[Record]) {
        self.script(&written(script));
    }

    /// All calls that take the script.
    fn script(&mut self, script: &[u8]) {
        let decoded = accepted(script);
        let reply = decoded.as_ref().map_err(|number| *number).and_then(packet);
        for (check, builder) in &mut self.builders {
            check.buffer(|| hex(script), &reply, |buffer| builder(script, buffer));
        }
        self.room(script, &reply);
        self.fit(script, &decoded, &reply);
    }

    /// The room is exactly the length of the Rust's packet.
    fn room(&mut self, script: &[u8], reply: &Answer<Vec<u8>>) {
        let answer = reply.as_ref().map_err(|number| *number).map(|reply| reply.len() as i64);
        self.room.number(|| hex(script), answer, || station_room(script));
    }

    /// The misfit is the first of all that the script has.
    fn fit(&mut self, script: &[u8], decoded: &Answer<Script>, reply: &Answer<Vec<u8>>) {
        let answer = match (decoded, reply) {
            (Ok(decoded), Ok(_)) => Ok(match first(&misfits(decoded)) {
                Some(first) => (1, first.to_vec()),
                None => (0, Vec::new()),
            }),
            (Err(number), _) | (_, Err(number)) => Err(*number),
        };
        self.fit.slots(|| hex(script), &answer, SLOTS, |out| station_fit(script, out));
    }

    /// Sequences of up to `most` records of every sort after a set, and after none.
    fn every_order(&mut self, most: usize) {
        let sorts = sorts_of_records();
        self.script(&[]);
        self.orders(&sorts, &mut Vec::new(), 2);
        self.orders(&sorts, &mut vec![set(&[])], most);
        self.orders(&sorts, &mut vec![set(&[]), row(), cell(8, &[])], 2);
        self.orders(&sorts, &mut vec![set(&[]), info(TRAILING, &[], &[], &[])], 2);
    }

    fn orders(&mut self, sorts: &[Record], before: &mut Vec<Record>, more: usize) {
        self.records(before);
        if more == 0 {
            return;
        }
        for sort in sorts {
            before.push(sort.clone());
            self.orders(sorts, before, more - 1);
            before.pop();
        }
    }

    /// Payloads of every length to 24 of every kind to 20, in order where the kind has one; all
    /// type bytes and all value bytes, each with data of every length to 9.
    fn every_payload_length(&mut self, random: &mut Random) {
        for kind in 0..=20 {
            for length in 0..=24 {
                for payload in [vec![0; length], vec![6; length], random.bytes(length)] {
                    self.records(&in_order(Record::new(kind, payload)));
                }
            }
        }
        for byte in 0..=0xFF {
            for length in 0..=9 {
                self.records(&in_order(Record::new(
                    CELL,
                    [&[byte][..], &vec![0x41; length]].concat(),
                )));
                self.records(&in_order(Record::new(
                    COLUMN,
                    [&[byte][..], &vec![0x41; length]].concat(),
                )));
            }
        }
        for kind in [SET, COLUMN, ROW, CELL] {
            for high in 1..=0xFF {
                self.records(&[set(&[]), Record::new(high << 8 | kind, [3, 0, 0, 0, 0, 0])]);
            }
        }
    }

    /// Every value under every type, alone and beside a cell more or less.
    fn values_and_types(&mut self) {
        let cells = cells_of_every_value();
        for type_byte in 1..=8 {
            for value in &cells {
                let one = [set(&[]), column(type_byte, COLLATION, b"n\0"), row()];
                self.records(&[&one[..], value].concat());
                self.records(&[&one[..], value, value].concat());
                self.records(&[&one[..], &[row()], value].concat());
                self.records(&[&one[..2], &one[1..], value].concat());
                self.records(&[&[set(&[]), row()], &value[..]].concat());
            }
        }
    }

    /// Each width's numbers at its borders, with their signs.
    fn integers(&mut self) {
        for value in 1..=4u8 {
            let width = 1 << (value - 1);
            for number in [
                0,
                1,
                0x7F,
                0x80,
                0xFF,
                0x7FFF,
                0x8000,
                0x7FFF_FFFF,
                0x8000_0000,
                i64::MAX,
                i64::MIN,
                -1,
            ] {
                let data = &number.to_le_bytes()[..width];
                let script = [set(&[]), column(value, COLLATION, &[]), row(), cell(value, data)];
                self.records(&script);
            }
        }
    }

    /// A Max value of up to six units or bytes, cut into chunks in every way.
    fn chunk_cuts(&mut self) {
        for (value, width) in [(6, 2), (8, 1), (9, 1)] {
            for length in 0..=6usize {
                for cuts in 0..1u32 << length.saturating_sub(1) {
                    let mut script =
                        vec![set(&[]), column(value, COLLATION, &[]), row(), cell(value, &[])];
                    let mut piece = Vec::new();
                    for place in 0..length {
                        piece.extend(vec![0xD8 + place as u8; width]);
                        if place + 1 == length || cuts >> place & 1 == 1 {
                            script.push(chunk(&piece));
                            piece.clear();
                        }
                    }
                    self.records(&script);
                }
            }
        }
    }

    /// Counts that do not go with the texts, and pairs cut between two texts.
    fn infos(&mut self) {
        for kind in [INFO, TRAILING] {
            for counts in 0..5u32.pow(3) {
                let counts = [counts % 5, counts / 5 % 5, counts / 25];
                for length in 0..=24 {
                    let mut payload = vec![0; 10];
                    payload.extend(counts.iter().flat_map(|count| (*count as u16).to_le_bytes()));
                    payload.extend(b"x\0".repeat(12)[..length].iter());
                    self.records(&in_order(Record::new(kind, payload)));
                }
            }
            for units in [[0xD83D, 0xDE00], [0xDE00, 0xD83D], [0x41, 0xD83D], [0xDE00, 0x41]] {
                let (high, low) = (utf16::bytes(&units[..1]), utf16::bytes(&units[1..]));
                let both = utf16::bytes(&units);
                self.records(&in_order(info(kind, &high, &low, &[])));
                self.records(&in_order(info(kind, &[], &high, &low)));
                for texts in [[&both[..], &[], &[]], [&[], &both, &[]], [&[], &[], &both]] {
                    self.records(&in_order(info(kind, texts[0], texts[1], texts[2])));
                }
            }
            for count in [0xFFFFu16, 0x8000, 0x7FFF] {
                let mut payload = vec![0; 10];
                payload.extend([count.to_le_bytes(), count.to_le_bytes(), [1, 0]].concat());
                payload.extend(b"y\0y\0");
                self.records(&in_order(Record::new(kind, payload)));
            }
        }
    }

    /// Names of 254 to 257 units, in letters and in pairs, with an empty chunk before or after,
    /// in the first set, a later one, and where a terminal error drops them.
    fn names_and_chunks(&mut self) {
        let empty = [row(), cell(9, &[]), chunk(&[1]), chunk(&[])];
        for units in 254..=257 {
            for pairs in [false, true] {
                let name = long_name(units, pairs);
                let column = column(3, COLLATION, &name);
                let server = info(INFO, b"m\0", &name, &[]);
                let procedure = info(TRAILING, b"m\0", &[], &name);
                let message = info(INFO, &name, &[], &[]);
                for terminal in [None, Some(error(TERMINAL, 1222, 13, b"t\0"))] {
                    let start =
                        |head: &[Record]| [&[set(&[])][..], head, terminal.as_slice()].concat();
                    let column = std::slice::from_ref(&column);
                    let server = std::slice::from_ref(&server);
                    let procedure = std::slice::from_ref(&procedure);
                    for script in [
                        start(column),
                        [&start(column)[..], &empty].concat(),
                        [&start(&[]), server, &empty].concat(),
                        [&start(&[]), server, procedure].concat(),
                        [&start(&[])[..], &empty, procedure].concat(),
                        [&start(&[])[..], &empty, &[set(&[])], column].concat(),
                        [&start(&[])[..], &[set(&[])], column, &empty].concat(),
                        [&start(&[])[..], &[set(&[])], server].concat(),
                        [&start(&[])[..], &[set(&[]), error(TERMINAL, 1, 1, &name)], &empty]
                            .concat(),
                        [&start(&[])[..], std::slice::from_ref(&message)].concat(),
                    ] {
                        self.records(&script);
                    }
                }
            }
        }
    }

    /// Column names of up to five units, each a letter or half a pair; and of 253 to 256 units, of which any
    /// number are pairs at the start or at the end.
    fn names_with_pairs(&mut self) {
        let units = [0x6E, 0xD83D, 0xDE00];
        for length in 0..=5u32 {
            for choice in 0..units.len().pow(length) {
                let unit = |place| units[choice / units.len().pow(place) % units.len()];
                self.named(&utf16::bytes(&(0..length).map(unit).collect::<Vec<u16>>()));
            }
        }
        let pair = utf16::bytes(&units[1..]);
        for length in 253..=256 {
            for count in 0..=length / 2 {
                let (letters, pairs) = (b"n\0".repeat(length - 2 * count), pair.repeat(count));
                self.named(&[&letters[..], &pairs].concat());
                self.named(&[&pairs[..], &letters].concat());
            }
        }
    }

    /// A row of two columns, the first of this name.
    fn named(&mut self, name: &[u8]) {
        let mut script = vec![set(&[]), column(3, COLLATION, name), column(5, COLLATION, b"t\0")];
        script.extend([row(), cell(3, &[7, 0, 0, 0]), cell(5, b"x\0")]);
        self.records(&script);
    }

    /// One, two and three faults of every kind at every place of a script of two sets.
    fn several_misfits(&mut self) {
        for faults in misfit::choices() {
            self.records(&misfit::with(&faults));
        }
    }

    /// 0 to 130 columns, and 300, with 0 to 2 rows, and one cell more and less.
    fn columns(&mut self, random: &mut Random) {
        for count in (0..=130).chain([300]) {
            let types: Vec<u8> = (0..count).map(|place| (place % 8) as u8 + 1).collect();
            let mut head = vec![set(&[])];
            for type_byte in &types {
                let name = utf16::random_text_bytes(random, 3);
                let name = if random.one_in(8) { name } else { b"c\0".to_vec() };
                head.push(column(*type_byte, COLLATION, &name));
            }
            let mut cells = vec![row()];
            for type_byte in &types {
                let value = fitting_value(random, *type_byte);
                cells
                    .push(cell(value, &[0x31, 0, 0x32, 0, 0x33, 0, 0x34, 0][..data_length(value)]));
            }
            let less = &cells[..cells.len() - 1];
            self.records(&head);
            self.records(&[&head[..], &cells].concat());
            self.records(&[&head[..], &cells, &cells].concat());
            self.records(&[&head[..], &cells, &[cell(10, &[])]].concat());
            self.records(&[&head[..], less].concat());
        }
    }

    /// One to four sets of several sorts, each with or without errors, and trailing infos.
    fn several_sets(&mut self) {
        let leading = error(LEADING, 50_001, 16, b"l\0");
        let terminal = error(TERMINAL, 1222, 13, b"t\0");
        let body =
            [column(3, COLLATION, b"n\0"), row(), cell(3, &[7, 0, 0, 0]), row(), cell(10, &[])];
        let sorts: Vec<Vec<Record>> = vec![
            vec![set(&[])],
            [&[set(&[])], &body[..]].concat(),
            [&[set(&[]), body[0].clone(), leading.clone()], &body[1..]].concat(),
            vec![set(&[]), terminal.clone()],
            [
                &[set(&[]), body[0].clone(), leading, terminal, info(INFO, b"i\0", &[], &[])],
                &body[1..],
            ]
            .concat(),
        ];
        let trailing = [info(TRAILING, b"w\0", b"s\0", b"p\0"), info(TRAILING, &[], &[], &[])];
        for choice in 0..sorts.len().pow(4) {
            let mut script = Vec::new();
            let mut rest = choice;
            while rest > 0 || script.is_empty() {
                script.extend(sorts[rest % sorts.len()].clone());
                rest /= sorts.len();
            }
            self.records(&script);
            script.extend(trailing[..1 + choice % 2].iter().cloned());
            self.records(&script);
        }
    }

    /// Classification bytes in one of three sets, with columns, infos and rows after them.
    fn classification(&mut self) {
        let body = [column(1, COLLATION, &[]), info(INFO, &[], &[], &[]), row(), cell(1, &[9])];
        for bytes in [&[][..], &[0], &[0xA3, 1, 0, 0xFD], &[0xFD; 40]] {
            for place in 0..3 {
                let mut script = Vec::new();
                for number in 0..3 {
                    script.push(set(if number == place { bytes } else { &[] }));
                    script.extend(body.iter().cloned());
                }
                self.records(&script);
            }
        }
    }

    /// Characters of other planes, alone and between letters, in every text.
    fn other_planes(&mut self) {
        for text in ["\u{1F600}", "a\u{10000}", "\u{10FFFF}b", "\u{FFFF}\u{D7FF}\u{E000}"] {
            let text = utf16::text_bytes(text);
            self.records(&[
                set(&[]),
                column(5, COLLATION, &text),
                error(LEADING, 1, 2, &text),
                info_of(INFO, (1, 2, 3, 4), [&text, &text, &text]),
                row(),
                cell(5, &text),
                info_of(TRAILING, (0xFFFF_FFFF, 0xFF, 0, 0xFFFF_FFFF), [&text, &text, &text]),
            ]);
            self.records(&[set(&[]), error(TERMINAL, 3, 4, &text)]);
        }
    }

    /// Replies of 65,530 to 65,540 bytes, the last bytes coming from each record that has bytes
    /// to give, in a bare script and after sets of every kind.
    fn result_lengths(&mut self, random: &mut Random) {
        let shape = Shape { fits: true, ..WIDE };
        let wide =
            std::iter::repeat_with(|| of_shape(random, shape)).find(|script| goes_on(script));
        for head in [Vec::new(), wide.expect("such a script comes")] {
            for growing in GROWING {
                for length in 65_530..=65_540 {
                    if let Some(script) = grown(&head, growing, length) {
                        self.records(&script);
                    }
                }
            }
        }
    }

    /// Case 12 of document 01.
    fn cases_of_12(&mut self) {
        for units in 32_745..=32_752 {
            let text = b"e\0".repeat(units);
            for kind in [LEADING, TERMINAL] {
                self.records(&[set(&[]), error(kind, 50_000, 16, &text)]);
            }
            self.records(&[set(&[]), set(&[]), error(TERMINAL, 50_000, 16, &text)]);
        }
    }

    /// Scripts of more than 65,536 bytes: dropped by a terminal error, or too long.
    fn long_scripts(&mut self) {
        let long = cell(5, &b"z\0".repeat(40_000));
        let terminal = error(TERMINAL, 1222, 13, b"t\0");
        let rows: Vec<Record> = (0..9_000).flat_map(|_| [row(), cell(10, &[])]).collect();
        for tail in [vec![row(), long], rows] {
            for head in [vec![set(&[])], vec![set(&[]), terminal.clone()]] {
                self.records(&[&head[..], &tail].concat());
                self.records(
                    &[&head[..], &tail, &[set(&[1]), row(), cell(8, &[]), chunk(&[])]].concat(),
                );
                self.records(&[&head[..], &tail, &[info(TRAILING, &[0, 0xD8], &[], &[])]].concat());
            }
        }
        self.records(&vec![set(&[]); 20_000]);
    }

    /// Small scripts cut at every byte and with every byte changed to every other.
    fn wrong_bytes(&mut self, size: Size) {
        for script in small_scripts() {
            let bytes = written(&script);
            for length in 0..bytes.len() {
                self.script(&bytes[..length]);
            }
            for place in 0..bytes.len() {
                for change in 1..=0xFF {
                    let mut changed = bytes.clone();
                    changed[place] ^= change;
                    self.script(&changed);
                }
            }
        }
        let mut random = size.random("cut scripts");
        for _ in 0..size.count(20, 200) {
            let bytes = written(&random_script(&mut random));
            for length in 0..bytes.len() {
                self.script(&bytes[..length]);
            }
        }
    }

    fn random_scripts(&mut self, random: &mut Random, count: usize) {
        for _ in 0..count {
            let script = random_script(random);
            self.records(&script);
            let damaged = damaged(random, &script);
            self.script(&damaged);
        }
    }
}

const COLLATION: [u8; 5] = [0x09, 0x04, 0xD0, 0x00, 0x34];

/// A record of every sort, well-shaped but for an odd chunk and two unknown kinds.
fn sorts_of_records() -> Vec<Record> {
    vec![
        set(&[]),
        set(&[0xA3]),
        column(3, COLLATION, b"n\0"),
        info(INFO, b"i\0", &[], &[]),
        row(),
        cell(3, &[7, 0, 0, 0]),
        cell(6, &[]),
        cell(7, &[]),
        cell(8, &[]),
        cell(9, &[]),
        cell(10, &[]),
        chunk(&[]),
        chunk(&[1]),
        chunk(&[1, 2]),
        error(LEADING, 1, 2, &[]),
        error(TERMINAL, 3, 4, &[]),
        info(TRAILING, &[], &[], &[]),
        Record::new(0, []),
        Record::new(10, []),
    ]
}

/// The record where it may stand: after what must be before it.
fn in_order(record: Record) -> Vec<Record> {
    let before = match record.kind {
        SET => vec![],
        CELL => vec![set(&[]), column(3, COLLATION, &[]), row()],
        CHUNK => vec![set(&[]), row(), cell(if record.payload.len() % 4 < 2 { 6 } else { 9 }, &[])],
        _ => vec![set(&[])],
    };
    [before, vec![record]].concat()
}

/// A cell of each value, with its chunks; texts on both sides of 8,000 bytes.
fn cells_of_every_value() -> Vec<Vec<Record>> {
    let mut cells: Vec<Vec<Record>> = vec![
        vec![cell(1, &[0x80])],
        vec![cell(2, &[0x00, 0x80])],
        vec![cell(3, &[1, 2, 3, 0x84])],
        vec![cell(4, &[1, 2, 3, 4, 5, 6, 7, 0x88])],
        vec![cell(5, &[])],
        vec![cell(5, b"a\0")],
        vec![cell(5, &b"b\0".repeat(4_000))],
        vec![cell(5, &b"c\0".repeat(4_001))],
        vec![cell(7, &[])],
        vec![cell(10, &[])],
    ];
    for value in [6, 8, 9] {
        cells.push(vec![cell(value, &[])]);
        cells.push(vec![cell(value, &[]), chunk(&[0x00, 0xD8]), chunk(&[1, 2, 3, 4])]);
        cells.push(vec![cell(value, &[]), chunk(&[1])]);
        cells.push(vec![cell(value, &[]), chunk(&[])]);
    }
    cells
}

/// How many bytes of data a cell of the value has here.
fn data_length(value: u8) -> usize {
    match value {
        1..=4 => 1 << (value - 1),
        5 => 4,
        _ => 0,
    }
}

/// A name of so many units: of letters, or of pairs with a letter at the end of an odd one.
fn long_name(units: usize, pairs: bool) -> Vec<u8> {
    if !pairs {
        return b"n\0".repeat(units);
    }
    let mut name = utf16::bytes(&[0xD83D, 0xDE00]).repeat(units / 2);
    name.extend(b"n\0".repeat(units % 2));
    name
}

/// Makes records with so many bytes or units more in them.
type Growing = fn(usize) -> Vec<Record>;

const GROWING: [Growing; 8] = [
    |bytes| vec![set(&vec![0xA3; bytes])],
    |bytes| vec![set(&[]), row(), cell(9, &[]), chunk(&vec![7; bytes])],
    |bytes| {
        vec![
            set(&[]),
            row(),
            cell(8, &[]),
            chunk(&vec![7; bytes / 2 + 1]),
            chunk(&vec![8; bytes / 2 + 1]),
        ]
    },
    |bytes| vec![set(&[]), row(), cell(6, &[]), chunk(&vec![7; bytes & !1])],
    |bytes| vec![set(&[]), row(), cell(5, &vec![0x41; bytes & !1])],
    |bytes| vec![set(&[]), info(INFO, &vec![0x41; bytes & !1], &[], b"p\0")],
    |bytes| vec![set(&[]), info(TRAILING, &vec![0x41; bytes & !1], b"s\0", &[])],
    |bytes| [vec![set(&[]), column(1, COLLATION, &[])], rows_of_bytes(bytes / 3)].concat(),
];

fn rows_of_bytes(count: usize) -> Vec<Record> {
    (0..count).flat_map(|place| [row(), cell(1, &[place as u8])]).collect()
}

/// The head and a growing tail with which the reply would be of this length, if one is.
fn grown(head: &[Record], growing: Growing, length: usize) -> Option<Vec<Record>> {
    let script = |bytes: usize| [head, &growing(bytes)].concat();
    let short = reply_length(&script(64))?;
    (0..8).find_map(|more| {
        let script = script(64 + length.checked_sub(short + more)?);
        (reply_length(&script) == Some(length)).then_some(script)
    })
}

/// The length of the Rust's reply, also where it is too long to be accepted.
fn reply_length(script: &[Record]) -> Option<usize> {
    Some(rust_packet(&accepted(&written(script)).ok()?).len())
}

/// Whether sets may follow and are emitted.
fn goes_on(script: &[Record]) -> bool {
    !script.iter().any(|record| matches!(record.kind, TERMINAL | TRAILING))
}

/// Ten small scripts that hold every kind between them.
fn small_scripts() -> [Vec<Record>; 11] {
    [
        vec![set(&[])],
        vec![set(&[]), column(3, COLLATION, &utf16::text_bytes("\u{1F600}")), row(), cell(10, &[])],
        vec![set(&[0xA3]), set(&[])],
        vec![set(&[]), column(3, COLLATION, b"n\0"), row(), cell(3, &[7, 0, 0, 0])],
        vec![set(&[]), column(5, COLLATION, &[]), row(), cell(5, b"a\0"), row(), cell(5, &[])],
        vec![set(&[]), error(LEADING, 1, 2, b"l\0"), error(TERMINAL, 3, 4, &[])],
        vec![set(&[]), info(INFO, b"m\0", b"s\0", b"p\0")],
        vec![
            set(&[]),
            column(6, COLLATION, &[]),
            row(),
            cell(6, &[]),
            chunk(&[1, 2]),
            chunk(&[3, 4]),
        ],
        vec![
            set(&[]),
            column(8, COLLATION, &[]),
            row(),
            cell(9, &[]),
            chunk(&[1]),
            row(),
            cell(7, &[]),
        ],
        vec![
            set(&[]),
            column(1, COLLATION, &[]),
            row(),
            cell(10, &[]),
            set(&[]),
            error(TERMINAL, 1, 2, &[]),
        ],
        vec![set(&[]), row(), cell(8, &[]), chunk(&[9]), info(TRAILING, &[], b"t\0", &[])],
    ]
}
