//! The list of answers on long slices, which a line gives by a rule, and whose words after the call by a check sum.

use crate::check::answers;
use crate::entry::Entry;
use common::library::Function;
use stwo::core::fields::m31::P;
use Argument::{Number, Read, Written};

/// The file's name without its extension.
pub const NAME: &str = "long_columns";

/// What the list is and how its lines read.
pub const HEADER: &str = "\
# Answers of the functions on long slices.\n\
# Recorded by `oracle/`, beside the Rust of starkware-libs/stwo, commit 826591c6c3; those of the transform beside its fast\n\
# Rust. Accepted inputs have the Rust's answer, refused ones the refusal of the table in docs/CALLS.md.\n\
# Each line is NAME ARG .. ARG = NUMBER POSITION SUM .. SUM, the name without `tari_`, in decimal.\n\
# A slice is LENGTH SEED PLACE WORD. Its first word is SEED, each next one 16807 times the one before modulo 2^31 - 1;\n\
# then WORD goes to PLACE, if the slice has it.\n\
# A destination's words, as the call leaves them, are a SUM: from 0 on, for each word the sum becomes 48271 times the sum\n\
# modulo 2^40 - 87, plus the word. Where NUMBER is 0, the first words of scratch end as anything: they are summed as they\n\
# were.\n";

const MULTIPLIER: u64 = 16807;
const SUM_MULTIPLIER: u64 = 48271;
const SUM_PRIME: u64 = (1 << 40) - 87;

/// A slice of a line, as the file's head says.
#[derive(Clone, Copy)]
struct Rule {
    length: usize,
    seed: u32,
    place: usize,
    word: u32,
}

#[derive(Clone, Copy)]
enum Argument {
    Number(i128),
    Read(Rule),
    Written(Rule),
}

impl Rule {
    /// A slice whose words are all made from the seed.
    fn new(length: usize, seed: u32) -> Rule {
        Rule { length, seed, place: length, word: 0 }
    }

    fn with(self, place: usize, word: u32) -> Rule {
        Rule { place, word, ..self }
    }

    fn numbers(&self) -> Vec<i128> {
        vec![self.length as i128, self.seed.into(), self.place as i128, self.word.into()]
    }

    fn words(&self) -> Vec<u32> {
        let next = |word: &u32| Some((u64::from(*word) * MULTIPLIER % u64::from(P)) as u32);
        let mut words: Vec<u32> = std::iter::successors(Some(self.seed), next).take(self.length).collect();
        if let Some(place) = words.get_mut(self.place) {
            *place = self.word;
        }
        words
    }
}

impl Argument {
    /// The numbers of the line.
    fn numbers(&self) -> Vec<i128> {
        match self {
            Number(number) => vec![*number],
            Read(rule) | Written(rule) => rule.numbers(),
        }
    }

    /// The numbers of the call, a slice as its length and then its words.
    fn expanded(&self) -> Vec<i128> {
        match self {
            Number(number) => vec![*number],
            Read(rule) | Written(rule) => {
                let words = rule.words().into_iter().map(i128::from);
                std::iter::once(rule.length as i128).chain(words).collect()
            }
        }
    }

    fn written(&self) -> Option<usize> {
        match self {
            Written(rule) => Some(rule.length),
            _ => None,
        }
    }
}

fn check_sum(words: &[u64]) -> u64 {
    words.iter().fold(0, |sum, word| sum % SUM_PRIME * SUM_MULTIPLIER + word)
}

/// The lines of a function; an error where the library doesn't answer as it should.
pub fn lines(entry: &Entry, function: &Function) -> Result<String, String> {
    inputs(entry.name).iter().map(|input| line(entry, function, input)).collect()
}

fn line(entry: &Entry, function: &Function, input: &[Argument]) -> Result<String, String> {
    let list = |numbers: Vec<i128>| numbers.iter().map(i128::to_string).collect::<Vec<_>>().join(" ");
    let numbers = list(input.iter().flat_map(Argument::numbers).collect());
    let pair = answers(entry, function, &vec![input.iter().flat_map(Argument::expanded).collect()]);
    if pair.library != pair.expected {
        return Err(format!("{} differs on the rules {numbers}", entry.name));
    }
    let mut words = &pair.expected.values[..];
    let mut sums = String::new();
    for length in input.iter().filter_map(Argument::written) {
        let (slice, rest) = words.split_at(length);
        sums += &format!(" {}", check_sum(slice));
        words = rest;
    }
    assert!(words.is_empty(), "{} writes other slices", entry.name);
    Ok(format!("{} {numbers} = {} {}{sums}\n", entry.name, pair.expected.number, pair.expected.position))
}

/// The inputs of a function; none where it takes no long slice.
fn inputs(name: &str) -> Vec<Vec<Argument>> {
    match name {
        "evaluate" | "interpolate" => (15..=17).flat_map(transformed).collect(),
        "bit_reverse" | "bit_reverse_coset_to_circle_domain_order" => permuted(),
        "coset_order_to_circle_domain_order" | "circle_domain_order_to_coset_order" => copied(),
        _ if name.ends_with("_batch_inverse_in_place") => inverted(),
        _ if name.ends_with("_batch_inverse_chunked") => {
            let with_chunk = |(input, size): (Vec<Argument>, i128)| [input, vec![Number(size)]].concat();
            inverted().into_iter().zip([1000, 1 << 14, 7, 4]).map(with_chunk).collect()
        }
        _ => Vec::new(),
    }
}

/// Above 2^14 words the transform goes half by half. Any words, a one at a place, words from P on, and wrong lengths.
fn transformed(log_size: u32) -> Vec<Vec<Argument>> {
    let size = 1 << log_size;
    let any = Rule::new(size, 1 + log_size);
    let scratch = Rule::new(size, u32::MAX);
    let input = |column, scratch| vec![Number(log_size.into()), Written(column), Written(scratch)];
    vec![
        input(any, scratch),
        input(Rule::new(size, P - 1), Rule::new(size + 5, 7)),
        input(Rule::new(size, 0).with(size - 2, 1), scratch),
        input(any.with(size - 1, P), scratch),
        input(any.with(size / 2 + 3, u32::MAX), scratch),
        input(Rule::new(size - 1, 3), scratch),
        input(any, Rule::new(size - 1, 3)),
    ]
}

fn permuted() -> Vec<Vec<Argument>> {
    let rules = [Rule::new(1 << 16, 5), Rule::new(1 << 17, u32::MAX), Rule::new((1 << 16) + 1, 9)];
    rules.map(|v| vec![Written(v)]).to_vec()
}

fn copied() -> Vec<Vec<Argument>> {
    let lengths = [(1 << 16, 1 << 16), (1 << 17, (1 << 17) + 9), (1 << 16, (1 << 16) - 1)];
    lengths.map(|(values, dst)| vec![Read(Rule::new(values, 6)), Written(Rule::new(dst, P))]).to_vec()
}

/// Words that are elements of any of the three fields, then with a word from P on, with a zero of M31, and too short.
fn inverted() -> Vec<Vec<Argument>> {
    let (column, dst) = (Rule::new(1 << 16, 11), Rule::new(1 << 16, 13));
    let inputs =
        [(column, dst), (column.with(40_000, P), dst), (column.with(50_000, 0), dst), (column, Rule::new(1 << 15, 13))];
    inputs.map(|(column, dst)| vec![Read(column), Written(dst)]).to_vec()
}
