//! The C interface with slices of length 0, whose pointers the header allows to be anything.

use std::fs;
use std::path::Path;
use std::ptr;
use taripomune_header::Header;
use taripomune_sys::*;

/// The number that each function answers with where all its slices are empty, with these pointers.
fn numbers(read: *const u32, write: *mut u32) -> Vec<(&'static str, u32)> {
    let (one, step) = ((1, 0), (1, 0));
    // SAFETY: a slice of length 0 is neither read nor written.
    unsafe {
        vec![
            ("m31_batch_inverse_in_place", tari_m31_batch_inverse_in_place(read, 0, write, 0).number),
            ("m31_batch_inverse_chunked", tari_m31_batch_inverse_chunked(read, 0, write, 0, 3).number),
            ("cm31_batch_inverse_in_place", tari_cm31_batch_inverse_in_place(read, 0, write, 0).number),
            ("cm31_batch_inverse_chunked", tari_cm31_batch_inverse_chunked(read, 0, write, 0, 3).number),
            ("qm31_batch_inverse_in_place", tari_qm31_batch_inverse_in_place(read, 0, write, 0).number),
            ("qm31_batch_inverse_chunked", tari_qm31_batch_inverse_chunked(read, 0, write, 0, 3).number),
            ("bit_reverse", tari_bit_reverse(write, 0).number),
            (
                "bit_reverse_coset_to_circle_domain_order",
                tari_bit_reverse_coset_to_circle_domain_order(write, 0).number,
            ),
            ("coset_order_to_circle_domain_order", tari_coset_order_to_circle_domain_order(read, 0, write, 0).number),
            ("circle_domain_order_to_coset_order", tari_circle_domain_order_to_coset_order(read, 0, write, 0).number),
            (
                "circle_domain_split",
                tari_circle_domain_split(0, one.0, one.1, 0, step.0, step.1, 0, 0, write, 0).number,
            ),
            ("evaluate", tari_evaluate(1, write, 0, write, 0).number),
            ("interpolate", tari_interpolate(1, write, 0, write, 0).number),
        ]
    }
}

/// Batch inversion and the copying pair take nothing to nothing; the others need a word.
fn expected() -> Vec<u32> {
    vec![0, 0, 0, 0, 0, 0, 8, 8, 0, 0, 8, 8, 8]
}

#[test]
fn every_function_with_slices_takes_null_where_the_length_is_0() {
    let numbers = numbers(ptr::null(), ptr::null_mut());
    assert_eq!(numbers.iter().map(|(_, number)| *number).collect::<Vec<_>>(), expected());
    let file = Path::new(env!("CARGO_MANIFEST_DIR")).join("../include/taripomune.h");
    let header = Header::read(&fs::read_to_string(file).unwrap());
    let with_slices: Vec<&str> = header.prototypes.iter().filter(|p| p.has_slices()).map(|p| &p.name[5..]).collect();
    assert_eq!(numbers.iter().map(|(name, _)| *name).collect::<Vec<_>>(), with_slices);
}

#[test]
fn or_any_other_pointer() {
    for address in [1, 4, usize::MAX] {
        let numbers = numbers(ptr::without_provenance(address), ptr::without_provenance_mut(address));
        assert_eq!(numbers.iter().map(|(_, number)| *number).collect::<Vec<_>>(), expected());
    }
}

#[test]
fn null_beside_a_slice_that_has_words_is_refused_by_its_length() {
    let mut words = [3, 5];
    // SAFETY: the pointer is good for two words, and the other slice has length 0.
    let refused = unsafe {
        [
            tari_m31_batch_inverse_in_place(words.as_ptr(), 2, ptr::null_mut(), 0).number,
            tari_coset_order_to_circle_domain_order(words.as_ptr(), 2, ptr::null_mut(), 0).number,
            tari_evaluate(1, words.as_mut_ptr(), 2, ptr::null_mut(), 0).number,
            tari_interpolate(1, ptr::null_mut(), 0, words.as_mut_ptr(), 2).number,
        ]
    };
    assert_eq!((refused, words), ([8; 4], [3, 5]));
}
