//! The smallest input with a refusal. Inputs are compared as words of a dictionary are, number by number from the left;
//! a slice is its length and then its words. Of numbers, those nearer 0 come first, then the positive one.

use crate::call::Call;
use common::library::Parameter;
use compare::circle_kinds::SECURE_ORDER;
use compare::kinds::P;

/// Inputs are searched in which at most so many arguments are other than 0 or empty.
const MOST_OTHERS: usize = 3;

/// Slices have at most so many words, as many as an element of QM31.
const MOST_WORDS: usize = 4;

/// The words of slices.
const WORDS: [i128; 3] = [0, 1, P];

/// The order of the circle over QM31 as two words.
const HIGH: i128 = (SECURE_ORDER >> 64) as i128;
const LOW: i128 = SECURE_ORDER as u64 as i128;

/// Where ranges of numbers begin or end. The numbers of an input are these and those beside them.
const ENDS: [i128; 17] = [0, 1, 2, 29, 30, 31, 32, 64, 65, P, 1 << 31, 2 * P, 1 << 32, P * P, 1 << 63, HIGH, LOW];

/// The smallest input that is refused with this number. If one of its numbers could be nearer 0, `ENDS` lacks an end.
pub fn smallest(call: &Call, number: u32) -> Result<Vec<i128>, String> {
    let arguments: Vec<_> = call.function.parameters.iter().map(arguments).collect();
    let mut numbers = Vec::new();
    if !complete(&mut numbers, &arguments, MOST_OTHERS, &|numbers| refused(call, numbers, number)) {
        return Err(format!("no input of {} is found that is refused with {number}", call.entry.name));
    }
    match nearer_zero(call, &numbers).iter().find(|nearer| refused(call, nearer, number)) {
        Some(nearer) => Err(format!("{} refuses {nearer:?}, before {numbers:?}, with {number}", call.entry.name)),
        None => Ok(numbers),
    }
}

fn refused(call: &Call, numbers: &[i128], number: u32) -> bool {
    call.refusal(numbers).is_some_and(|refusal| refusal.number == number)
}

/// What an argument may be, in order, 0 or the empty slice first.
fn arguments(parameter: &Parameter) -> Vec<Vec<i128>> {
    let Some((least, most)) = parameter.range else {
        return slices();
    };
    let beside = ENDS.iter().flat_map(|end| [end - 1, *end, end + 1]);
    let mut numbers: Vec<i128> = beside.flat_map(|number| [number, -number]).collect();
    numbers.retain(|number| (least..=most).contains(number));
    numbers.sort_by_key(|number| (number.abs(), *number < 0));
    numbers.dedup();
    numbers.into_iter().map(|number| vec![number]).collect()
}

fn slices() -> Vec<Vec<i128>> {
    let of_length = |length: usize| {
        let one_more = |lists: Vec<Vec<i128>>, _| {
            lists.iter().flat_map(|list| WORDS.map(|word| [&list[..], &[word]].concat())).collect()
        };
        (0..length).fold(vec![vec![length as i128]], one_more)
    };
    (0..=MOST_WORDS).flat_map(of_length).collect()
}

/// Appends to the numbers the first arguments in order with which they pass the test, at most `others` of them other
/// than the first. The numbers stay where there are none.
fn complete(
    numbers: &mut Vec<i128>,
    arguments: &[Vec<Vec<i128>>],
    others: usize,
    test: &dyn Fn(&[i128]) -> bool,
) -> bool {
    let [next, rest @ ..] = arguments else {
        return test(numbers);
    };
    let start = numbers.len();
    for (place, argument) in next.iter().enumerate() {
        let Some(others) = others.checked_sub(place.min(1)) else {
            return false;
        };
        numbers.extend(argument);
        if complete(numbers, rest, others, test) {
            return true;
        }
        numbers.truncate(start);
    }
    false
}

/// The inputs with one number nearer 0 by one; the lengths of slices stay.
fn nearer_zero(call: &Call, numbers: &[i128]) -> Vec<Vec<i128>> {
    let mut inputs = Vec::new();
    let mut end = 0;
    for (parameter, argument) in call.function.parameters.iter().zip(call.arguments(numbers)) {
        let start = end + usize::from(parameter.range.is_none());
        end += argument.len();
        for place in (start..end).filter(|place| numbers[*place] != 0) {
            let mut nearer = numbers.to_vec();
            nearer[place] -= nearer[place].signum();
            inputs.push(nearer);
        }
    }
    inputs
}
