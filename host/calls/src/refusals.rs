//! The refusals that a definition makes, in the order of its checks.

use crate::imports::Module;
use crate::specs::{Key, Named, Specs};

/// Where the cases of a refusal are declared.
const CASES: &str = "declared.refusal.Refusal.TheVariants";

/// The numbers of the refusals that definitions make, in the order in which their texts name them; of equal ones that
/// follow one another, one.
pub fn of(names: &[Named], specs: &Specs) -> Vec<u32> {
    let mut numbers = vec![];
    for named in names {
        collect(&named.key, specs, &mut numbers);
    }
    numbers.dedup();
    numbers
}

fn collect(key: &Key, specs: &Specs, numbers: &mut Vec<u32>) {
    if key.0.name == CASES {
        let number = number_of(specs, &key.1).unwrap_or_else(|| panic!("{} has no number", key.1));
        numbers.push(number);
    } else if let Some(definition) = specs.definitions.get(key)
        && makes_refusals(&definition.result)
    {
        for named in &definition.names {
            collect(&named.key, specs, numbers);
        }
    }
}

/// Whether a definition of this type gives checks or an answer.
fn makes_refusals(result: &str) -> bool {
    result == "Checks" || result.starts_with("Result ")
}

/// Whether a definition is an answer: not `checked` and `outcome`, which make one of any checks.
pub fn is_answer(key: &Key, specs: &Specs) -> bool {
    key.0 != Module::new("fields", "Check")
        && specs.definitions.get(key).is_some_and(|definition| definition.result.starts_with("Result "))
}

/// The number that the specs give a case.
fn number_of(specs: &Specs, case: &str) -> Option<u32> {
    cases(specs).into_iter().find(|(name, _)| name == case).map(|(_, number)| number)
}

/// The cases and their numbers, in the order of checking, as `number_of` gives them.
pub fn cases(specs: &Specs) -> Vec<(String, u32)> {
    let is_number_of = |key: &Key| key.0.crate_name == "fields" && key.1 == "number_of";
    let (_, definition) = specs.definitions.iter().find(|(key, _)| is_number_of(key)).expect("number_of is defined");
    let equations = definition.text.iter().filter_map(|line| line.strip_prefix("number_of ")?.split_once(" = "));
    let case = |pattern: &str| pattern.trim_start_matches('(').split([' ', ')']).next().unwrap().to_string();
    equations.map(|(pattern, number)| (case(pattern), number.trim().parse().expect("a number"))).collect()
}
