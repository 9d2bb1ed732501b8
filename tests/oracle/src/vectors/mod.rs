//! A fixed list of calls and the oracle's answers, which the program `replay` replays: a line a call,
//! `NAME ARGUMENT.. = ANSWER`, by function. Bytes are in packed hexadecimal (`hex::packed`), other
//! arguments decimal; `tests/vectors/README.md` has the answers of each function.

mod builds;
mod labels;
mod reads;
mod results;

use crate::hex::{packed, unhex};
use crate::random::Random;
use crate::refusal::{Answer, SHORT_BUFFER};
use std::fmt::Display;
use std::io::stdin;

/// The most bytes of a random input, so that lines stay short.
const LONGEST_INPUT: usize = 300;

/// The list in the making: the seed of what is random, how much of it there is of each function.
#[derive(Clone, Copy)]
pub struct Vectors {
    seed: u64,
    count: usize,
}

/// Prints the cases and `count` random calls of each function.
pub fn print(seed: u64, count: usize) {
    let vectors = Vectors { seed, count };
    reads::print(vectors);
    labels::print(vectors);
    results::print(vectors);
    builds::print(vectors);
}

/// Answers calls of headers, requests and logins that stand on standard input, `NAME INPUT` a line;
/// false where a line is none.
pub fn answer() -> bool {
    for line in stdin().lines() {
        let line = line.expect("standard input");
        let Some((name, input)) = line.split_once(' ') else { return false };
        let Some(answer) = reads::answer(name, &unhex(input)) else { return false };
        print_line(name, &[input.to_string()], &words(answer));
    }
    true
}

impl Vectors {
    fn random(self, name: &str) -> Random {
        Random::new(self.seed, name)
    }

    /// The cases, then as many random inputs that are not long.
    fn inputs(
        self,
        name: &str,
        cases: Vec<Vec<u8>>,
        random_input: impl Fn(&mut Random) -> Vec<u8>,
    ) -> Vec<Vec<u8>> {
        let mut random = self.random(name);
        let short = std::iter::repeat_with(|| random_input(&mut random))
            .filter(|input| input.len() <= LONGEST_INPUT);
        cases.into_iter().chain(short.take(self.count)).collect()
    }
}

fn print_line(name: &str, arguments: &[String], answer: &str) {
    println!("{name} {} = {answer}", arguments.join(" "));
}

/// The line of a call of one input, whose answer is words.
fn print_read<T: Display>(name: &str, input: &[u8], answer: Answer<T>) {
    print_line(name, &[packed(input)], &words(answer));
}

fn words<T: Display>(answer: Answer<T>) -> String {
    answer.map_or_else(|number| format!("refused {number}"), |answer| answer.to_string())
}

fn joined(numbers: &[u64]) -> String {
    numbers.iter().map(u64::to_string).collect::<Vec<_>>().join(" ")
}

/// The lines of a builder: a buffer that is lent exact, longer, one short, or not at all, chosen by
/// what is random.
fn print_built(random: &mut Random, name: &str, arguments: &[String], reply: &Answer<Vec<u8>>) {
    let lent = match reply {
        Ok(reply) => match random.below(8) {
            0 => 0,
            1 => reply.len().saturating_sub(1),
            2..5 => reply.len(),
            _ => reply.len() + random.within(1, 40),
        },
        Err(_) => random.pick(&[0, 80, 300]),
    };
    print_lent(name, lent, arguments, reply);
}

/// The line of a builder with so many bytes lent.
fn print_lent(name: &str, lent: usize, arguments: &[String], reply: &Answer<Vec<u8>>) {
    let answer = match reply {
        Ok(reply) if lent < reply.len() => Err(SHORT_BUFFER),
        Ok(reply) => Ok(packed(reply)),
        Err(number) => Err(*number),
    };
    print_line(name, &[&[lent.to_string()], arguments].concat(), &words(answer));
}

/// The lines of a builder with buffers at every border.
fn print_every_lent(name: &str, arguments: &[String], reply: &[u8]) {
    let (reply, length) = (Ok(reply.to_vec()), reply.len());
    for lent in [0, 1, length - 1, length, length + 1, length + 40] {
        print_lent(name, lent, arguments, &reply);
    }
}
