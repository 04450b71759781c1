//! Chains of calls whose ends differ on inputs that the library accepts.

use compare::check::call;
use stwo::core::circle::{CirclePointIndex, Coset};
use stwo::core::poly::circle::CanonicCoset;

/// The number that a chain of calls ends with.
struct Chain {
    /// As calls of the header.
    text: &'static str,
    library: fn() -> i128,
    rust: fn() -> i128,
}

const CHAINS: [Chain; 3] = [
    Chain {
        text: "index_half(index_subgroup_gen(0))",
        library: || call("index_half", &call("index_subgroup_gen", &[0]))[0],
        rust: || CirclePointIndex::subgroup_gen(0).half().0 as i128,
    },
    Chain {
        text: "coset_is_doubling_of(coset_subgroup(0), coset_subgroup(1))",
        library: || {
            let subgroups = [0, 1].map(|log_size| call("coset_subgroup", &[log_size]));
            call("coset_is_doubling_of", &subgroups.concat())[0]
        },
        rust: || Coset::subgroup(0).is_doubling_of(Coset::subgroup(1)).into(),
    },
    Chain {
        text: "circle_domain_is_canonic(canonic_coset_circle_domain(canonic_coset_new(1)))",
        library: || {
            let canonic = call("canonic_coset_new", &[1]);
            call("circle_domain_is_canonic", &call("canonic_coset_circle_domain", &canonic))[0]
        },
        rust: || CanonicCoset::new(1).circle_domain().is_canonic().into(),
    },
];

/// A row for each chain, of which the ends must differ.
pub fn table() -> Result<String, String> {
    let row = |Chain { text, library, rust }: &Chain| match (library(), rust()) {
        (library, rust) if library == rust => Err(format!("{text} ends with {library} on both sides")),
        (library, rust) => Ok(format!("| `{text}` | {library} | {rust} |\n")),
    };
    let rows: String = CHAINS.iter().map(row).collect::<Result<_, _>>()?;
    Ok(format!("### Chains of calls\n\n| chain | the library | the Rust |\n|---|---|---|\n{rows}\n"))
}
