//! Further inputs of which the document tells what the Rust does.

use crate::call::Call;
use compare::kinds::P;

/// The names of arguments, each with a number or the words of a slice.
type Arguments = &'static [(&'static str, &'static [i128])];

/// An input: the arguments that aren't 0 or empty.
pub struct Further {
    pub function: &'static str,
    arguments: Arguments,
    pub remark: &'static str,
}

impl Further {
    /// The numbers of the input.
    pub fn numbers(&self, call: &Call) -> Result<Vec<i128>, String> {
        let parameters = call.function.parameters;
        if let Some((name, _)) = self.arguments.iter().find(|(name, _)| parameters.iter().all(|p| p.name != *name)) {
            return Err(format!("{} has no argument {name}", self.function));
        }
        let argument = |name| self.arguments.iter().find(|(named, _)| *named == name).map(|(_, numbers)| *numbers);
        let numbers = parameters.iter().flat_map(|parameter| match (parameter.range, argument(parameter.name)) {
            (Some(_), numbers) => numbers.unwrap_or(&[0]).to_vec(),
            (None, words) => {
                let words = words.unwrap_or_default();
                [&[words.len() as i128], words].concat()
            }
        });
        Ok(numbers.collect())
    }
}

const fn input(function: &'static str, arguments: Arguments) -> Further {
    remarked(function, arguments, "")
}

const fn remarked(function: &'static str, arguments: Arguments, remark: &'static str) -> Further {
    Further { function, arguments, remark }
}

/// The least index that is refused.
const INDEX: i128 = 1 << 31;
/// The least offset above its range.
const OFFSET: i128 = (1 << 31) + 1;

/// Remarks on accepted inputs.
const STEP_0: &str = "the library's step index is 0";
const ANSWERS_0: &str = "the library answers 0";

const LARGEST_U32: i128 = (1 << 32) - 1;
const LARGEST_U64: i128 = (1 << 64) - 1;

pub const FURTHER: &[Further] = &[
    input("m31_sub", &[("a", &[P])]),
    input("m31_neg", &[("a", &[P + 1])]),
    input("cm31_sub", &[("a0", &[P])]),
    input("cm31_inverse", &[("a0", &[P])]),
    input("cm31_complex_conjugate", &[("a0", &[P])]),
    input("cm31_try_into_m31", &[("a0", &[P])]),
    input("cm31_add_m31", &[("a1", &[P])]),
    input("qm31_sub", &[("a0", &[P])]),
    input("qm31_inverse", &[("a0", &[P])]),
    input("qm31_complex_conjugate", &[("a0", &[P])]),
    input("qm31_try_into_m31", &[("a0", &[P])]),
    input("qm31_add_m31", &[("a3", &[P])]),
    remarked(
        "m31_batch_inverse_in_place",
        &[("column", &[3, 0]), ("dst", &[7, 7])],
        "the library leaves `dst = [7, 7]`",
    ),
    remarked(
        "m31_batch_inverse_in_place",
        &[("column", &[1, 2, 3, 4, 5, 6, 7, 8]), ("dst", &[9, 9, 9, 9, 9, 9, 9, 9, 9])],
        "the library inverts, and the ninth word stays",
    ),
    input("m31_batch_inverse_chunked", &[("column", &[1]), ("dst", &[0])]),
    remarked(
        "m31_batch_inverse_chunked",
        &[("column", &[1, 2, 3, 4, 5, 6, 7, 8]), ("dst", &[9, 9, 9, 9, 9, 9, 9, 9, 9]), ("chunk_size", &[9])],
        "the library inverts, and the ninth word stays",
    ),
    input("cm31_batch_inverse_in_place", &[("column", &[1, 0])]),
    input("qm31_batch_inverse_in_place", &[("column", &[1, 0, 0, 0])]),
    input("point_add", &[("ax", &[P])]),
    input("point_sub", &[("ax", &[P])]),
    input("point_add", &[("ax", &[LARGEST_U32]), ("bx", &[LARGEST_U32])]),
    input("point_neg", &[("x", &[P])]),
    input("point_neg", &[("y", &[P + 1])]),
    input("point_conjugate", &[("x", &[P])]),
    input("point_conjugate", &[("y", &[P + 1])]),
    input("point_double", &[("x", &[P])]),
    input("point_mul", &[("x", &[P]), ("scalar_low", &[1])]),
    remarked("point_mul_signed", &[("x", &[1]), ("y", &[1]), ("off", &[-(1 << 63)])], "by the definition (16, 0)"),
    input("point_antipode", &[("x", &[P])]),
    input("point_log_order", &[("x", &[P]), ("y", &[1])]),
    remarked("point_log_order", &[("x", &[1]), ("y", &[1])], "by x alone"),
    remarked("point_log_order", &[("x", &[1]), ("y", &[5])], "by x alone"),
    input("point_log_order", &[("x", &[3])]),
    input("secure_point_add", &[("ax0", &[LARGEST_U32]), ("bx0", &[LARGEST_U32])]),
    input("secure_point_neg", &[("x0", &[P])]),
    input("secure_point_neg", &[("y0", &[P + 1])]),
    remarked(
        "secure_point_mul_signed",
        &[("x0", &[1]), ("y0", &[1]), ("off", &[-(1 << 63)])],
        "by the definition (16, 0, 0, 0, 0, 0, 0, 0)",
    ),
    input("secure_point_conjugate", &[("x0", &[P])]),
    input("secure_point_antipode", &[("x0", &[P])]),
    remarked("index_subgroup_gen", &[], ANSWERS_0),
    input("index_half", &[("index", &[INDEX + 1])]),
    input("index_sub", &[("a", &[INDEX])]),
    input("index_sub", &[("b", &[INDEX + 1])]),
    input("index_neg", &[("index", &[INDEX + 1])]),
    input("index_mul", &[("index", &[INDEX]), ("count", &[1])]),
    remarked("bit_reverse_index", &[("i", &[1]), ("log_size", &[65])], "the log size is taken modulo 64"),
    input("bit_reverse", &[("v", &[1, 2, 3])]),
    input("offset_bit_reversed_circle_domain_index", &[("offset", &[1])]),
    input("offset_bit_reversed_circle_domain_index", &[("domain_log_size", &[1]), ("eval_log_size", &[1])]),
    input(
        "offset_bit_reversed_circle_domain_index",
        &[("domain_log_size", &[33]), ("eval_log_size", &[2]), ("offset", &[1])],
    ),
    input("offset_bit_reversed_circle_domain_index", &[("eval_log_size", &[31])]),
    input("offset_bit_reversed_circle_domain_index", &[("eval_log_size", &[33]), ("offset", &[1])]),
    remarked(
        "offset_bit_reversed_circle_domain_index",
        &[("domain_log_size", &[2]), ("eval_log_size", &[34]), ("offset", &[1])],
        "as for -1: its step 2^31 is an i32 and turns negative; with 2^31 it would be 4",
    ),
    input(
        "offset_bit_reversed_circle_domain_index",
        &[("domain_log_size", &[1]), ("eval_log_size", &[2]), ("offset", &[-OFFSET])],
    ),
    input(
        "offset_bit_reversed_circle_domain_index",
        &[("i", &[1]), ("eval_log_size", &[30]), ("offset", &[-17_179_869_183])],
    ),
    input("previous_bit_reversed_circle_domain_index", &[("domain_log_size", &[1]), ("eval_log_size", &[1])]),
    input("previous_bit_reversed_circle_domain_index", &[("domain_log_size", &[30]), ("eval_log_size", &[31])]),
    input("previous_bit_reversed_circle_domain_index", &[("eval_log_size", &[33])]),
    input("coset_index_to_circle_domain_index", &[("coset_index", &[1]), ("log_domain_size", &[32])]),
    input("coset_index_to_circle_domain_index", &[("coset_index", &[1]), ("log_domain_size", &[63])]),
    input("coset_index_to_circle_domain_index", &[("coset_index", &[1]), ("log_domain_size", &[64])]),
    remarked("coset_index_to_circle_domain_index", &[("coset_index", &[2])], "no position of the domain"),
    input("coset_index_to_circle_domain_index", &[("coset_index", &[3])]),
    input("bit_reverse_coset_to_circle_domain_order", &[("v", &[1, 2, 3])]),
    input("coset_order_to_circle_domain_order", &[("values", &[1, 2, 3]), ("dst", &[0, 0, 0])]),
    input("coset_order_to_circle_domain_order", &[("values", &[1, 2, 3, 4, 5]), ("dst", &[0, 0, 0, 0, 0])]),
    input("coset_order_to_circle_domain_order", &[("values", &[1, 2]), ("dst", &[0])]),
    input("circle_domain_order_to_coset_order", &[("values", &[1, 2, 3]), ("dst", &[0, 0, 0])]),
    input("circle_domain_order_to_coset_order", &[("values", &[1, 2, 3, 4, 5]), ("dst", &[0, 0, 0, 0, 0])]),
    input("circle_domain_order_to_coset_order", &[("values", &[1, 2]), ("dst", &[0])]),
    remarked("coset_new", &[], STEP_0),
    remarked("coset_subgroup", &[], STEP_0),
    remarked("coset_odds", &[], STEP_0),
    remarked("coset_half_odds", &[], STEP_0),
    input("coset_size", &[("log_size", &[64])]),
    input("coset_size", &[("initial_index", &[INDEX])]),
    input("coset_iter_indices", &[("log_size", &[64])]),
    input("coset_iter_indices", &[("initial_index", &[INDEX])]),
    input("coset_double", &[("initial_index", &[INDEX]), ("log_size", &[1])]),
    input("coset_double", &[("initial_x", &[P]), ("log_size", &[1])]),
    input("coset_double", &[("initial_x", &[LARGEST_U32]), ("initial_y", &[LARGEST_U32]), ("log_size", &[1])]),
    remarked(
        "coset_double",
        &[("initial_index", &[1]), ("initial_x", &[1]), ("step_x", &[1]), ("log_size", &[1])],
        "index and point each by itself",
    ),
    input("coset_repeated_double", &[("initial_index", &[INDEX])]),
    input("coset_repeated_double", &[("initial_x", &[P])]),
    input("coset_is_doubling_of", &[("log_size", &[32]), ("other_log_size", &[32])]),
    input("coset_is_doubling_of", &[("initial_index", &[INDEX]), ("other_initial_index", &[INDEX])]),
    input(
        "coset_is_doubling_of",
        &[
            ("initial_x", &[1]),
            ("step_x", &[1]),
            ("other_initial_index", &[INDEX]),
            ("other_initial_x", &[1]),
            ("other_step_x", &[1]),
            ("other_log_size", &[1]),
        ],
    ),
    input("coset_is_doubling_of", &[("initial_x", &[P]), ("other_initial_x", &[P])]),
    remarked("coset_is_doubling_of", &[("initial_x", &[P])], "equal modulo P"),
    remarked("coset_is_doubling_of", &[("other_log_size", &[32])], "the first record wholly before the other"),
    input("coset_initial", &[("initial_x", &[P])]),
    remarked("coset_initial", &[("initial_index", &[1])], "by the point"),
    input("coset_index_at", &[("initial_index", &[INDEX])]),
    input("coset_index_at", &[("step_index", &[INDEX]), ("i", &[1])]),
    input("coset_index_at", &[("initial_index", &[LARGEST_U64]), ("step_index", &[1]), ("i", &[1])]),
    input("coset_at", &[("initial_index", &[INDEX])]),
    remarked("coset_at", &[("initial_index", &[1])], "by the index"),
    input("coset_at", &[("initial_index", &[LARGEST_U64]), ("step_index", &[1]), ("i", &[1])]),
    input("coset_shift", &[("initial_index", &[INDEX])]),
    input("coset_shift", &[("initial_x", &[1]), ("step_x", &[1]), ("shift_size", &[INDEX])]),
    input(
        "coset_shift",
        &[
            ("initial_index", &[1]),
            ("initial_x", &[2]),
            ("initial_y", &[1268011823]),
            ("step_x", &[1]),
            ("shift_size", &[LARGEST_U64]),
        ],
    ),
    input("coset_shift", &[("step_x", &[P])]),
    remarked("coset_shift", &[("step_x", &[P]), ("shift_size", &[INDEX])], "the record wholly before the shift"),
    remarked(
        "coset_shift",
        &[("initial_index", &[1])],
        "the initial point is that of the new index, the step point stays",
    ),
    input("coset_conjugate", &[("initial_index", &[INDEX])]),
    input("coset_conjugate", &[("step_index", &[INDEX + 1])]),
    remarked("coset_conjugate", &[("initial_index", &[1])], "both points are those of the new indices"),
    input("coset_iterator_next", &[("cur", &[INDEX])]),
    input("coset_iterator_next", &[("cur", &[INDEX]), ("remaining", &[1])]),
    input("coset_iterator_next", &[("step", &[INDEX]), ("remaining", &[1])]),
    input("coset_iterator_next", &[("cur", &[LARGEST_U64]), ("step", &[1]), ("remaining", &[1])]),
    input("canonic_coset_try_new", &[("log_size", &[31])]),
    input("canonic_coset_new", &[("log_size", &[31])]),
    input("canonic_coset_coset", &[("log_size", &[31])]),
    remarked("canonic_coset_half_coset", &[("initial_x", &[1]), ("step_x", &[1]), ("log_size", &[1])], STEP_0),
    input("canonic_coset_half_coset", &[("log_size", &[31])]),
    remarked("canonic_coset_circle_domain", &[("initial_x", &[1]), ("step_x", &[1]), ("log_size", &[1])], STEP_0),
    input("canonic_coset_circle_domain", &[("log_size", &[31])]),
    input("canonic_coset_log_size", &[("log_size", &[31])]),
    input("canonic_coset_size", &[("log_size", &[31])]),
    input("canonic_coset_initial_index", &[("log_size", &[31])]),
    input("canonic_coset_step_size", &[("log_size", &[31])]),
    input("canonic_coset_step", &[("log_size", &[31])]),
    input("canonic_coset_index_at", &[("log_size", &[31])]),
    input("canonic_coset_at", &[("log_size", &[31])]),
    input("canonic_coset_initial_index", &[("initial_index", &[INDEX]), ("log_size", &[1])]),
    input("canonic_coset_step", &[("step_x", &[P]), ("log_size", &[1])]),
    input("canonic_coset_index_at", &[("initial_index", &[INDEX]), ("log_size", &[1])]),
    input("canonic_coset_at", &[("initial_index", &[INDEX]), ("log_size", &[1])]),
    input("circle_domain_new", &[("initial_index", &[INDEX])]),
    input("circle_domain_iter_indices", &[("initial_index", &[INDEX])]),
    input("circle_domain_iter_indices", &[("initial_index", &[INDEX + 1])]),
    input("circle_domain_iter_indices", &[("step_index", &[INDEX]), ("log_size", &[1])]),
    input("circle_domain_size", &[("log_size", &[63])]),
    input("circle_domain_log_size", &[("log_size", &[LARGEST_U32])]),
    input("circle_domain_at", &[("log_size", &[64])]),
    input("circle_domain_at", &[("initial_index", &[INDEX])]),
    input("circle_domain_index_at", &[("log_size", &[64])]),
    remarked(
        "circle_domain_index_at",
        &[("step_index", &[1]), ("log_size", &[64]), ("i", &[1])],
        "the conjugate's first element: the size is taken as 1",
    ),
    input("circle_domain_index_at", &[("initial_index", &[INDEX])]),
    input("circle_domain_index_at", &[("initial_index", &[INDEX]), ("i", &[1])]),
    remarked("circle_domain_is_canonic", &[("initial_x", &[1]), ("step_x", &[1])], ANSWERS_0),
    remarked(
        "circle_domain_is_canonic",
        &[("initial_index", &[1 << 30]), ("initial_x", &[P - 1]), ("step_x", &[1])],
        ANSWERS_0,
    ),
    input("circle_domain_is_canonic", &[("initial_index", &[INDEX])]),
    input("circle_domain_is_canonic", &[("initial_x", &[P])]),
    remarked("circle_domain_split", &[("initial_x", &[1]), ("step_x", &[1]), ("shifts", &[0])], STEP_0),
    input("circle_domain_split", &[("log_size", &[32]), ("log_parts", &[1]), ("shifts", &[0, 0])]),
    input("circle_domain_split", &[("initial_index", &[INDEX]), ("shifts", &[0])]),
    input(
        "circle_domain_split",
        &[("step_index", &[INDEX]), ("log_size", &[1]), ("log_parts", &[1]), ("shifts", &[0, 0])],
    ),
    input("circle_domain_split", &[("initial_x", &[P]), ("shifts", &[0])]),
    input("circle_domain_shift", &[("initial_index", &[INDEX])]),
    input("circle_domain_shift", &[("initial_x", &[1]), ("step_x", &[1]), ("shift", &[INDEX])]),
    input("circle_domain_index_iterator_next", &[("first_cur", &[INDEX]), ("first_remaining", &[1])]),
    input("circle_domain_index_iterator_next", &[("second_cur", &[INDEX]), ("second_remaining", &[1])]),
    input(
        "circle_domain_index_iterator_next",
        &[("first_cur", &[LARGEST_U64]), ("first_step", &[1]), ("first_remaining", &[1])],
    ),
];
