//! Bytes in upper-case hexadecimal, `-` for none of them.

pub fn hex(bytes: &[u8]) -> String {
    if bytes.is_empty() {
        return "-".to_string();
    }
    bytes.iter().map(|byte| format!("{byte:02X}")).collect()
}

/// The bytes of hexadecimal digits, which may stand in groups.
pub fn unhex(digits: &str) -> Vec<u8> {
    let digits: Vec<u8> = digits.bytes().filter(u8::is_ascii_hexdigit).collect();
    let byte = |pair: &[u8; 2]| u8::from_str_radix(std::str::from_utf8(pair).unwrap(), 16).unwrap();
    digits.as_chunks::<2>().0.iter().map(byte).collect()
}

/// Bytes in hexadecimal, where a run of the same few bytes is `DIGITS*COUNT` and `,` joins runs.
pub fn packed(bytes: &[u8]) -> String {
    let mut runs = Vec::new();
    let (mut from, mut at) = (0, 0);
    while at < bytes.len() {
        match run_at(&bytes[at..]) {
            Some((period, count)) => {
                runs.extend((from < at).then(|| hex(&bytes[from..at])));
                runs.push(format!("{}*{count}", hex(&bytes[at..at + period])));
                at += period * count;
                from = at;
            }
            None => at += 1,
        }
    }
    runs.extend((from < at).then(|| hex(&bytes[from..at])));
    if runs.is_empty() { hex(bytes) } else { runs.join(",") }
}

/// The bytes and the times of the longest run at the front, of those that are worth it.
fn run_at(bytes: &[u8]) -> Option<(usize, usize)> {
    let repeats = |period: usize| {
        let first = bytes.get(..period)?;
        let count = bytes.chunks_exact(period).take_while(|chunk| *chunk == first).count();
        (period * (count - 1) >= SPARED).then_some((period, count))
    };
    (1..=LONGEST_PERIOD).filter_map(repeats).max_by_key(|(period, count)| period * (count - 1))
}

/// The bytes that a run must spare, and the longest repeated piece.
const SPARED: usize = 48;
const LONGEST_PERIOD: usize = 32;
