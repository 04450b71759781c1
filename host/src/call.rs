//! Calls of the library, and what their replies say.

use crate::Refusal;
use taripomune_sys::{Reply, tari_bool_reply, tari_u32_reply, tari_u64_reply, tari_write_reply};

// Lengths and positions are u64 in the library.
const _: () = assert!(usize::BITS == 64, "the library is made for 64-bit machines");

/// Calls a function of the C interface. Each argument is its kind and a variable; it is passed as its numbers, a slice
/// (`read` or `write`) as its pointer and its length in words.
macro_rules! call {
    ($function:ident($($kind:ident $value:expr),*)) => { call!(@ $function [] $($kind $value,)*) };
    (@ $function:ident [$($numbers:tt)*]) => { taripomune_sys::$function($($numbers)*) };
    (@ $function:ident [$($numbers:tt)*] number $v:expr, $($rest:tt)*) => {
        call!(@ $function [$($numbers)* $v,] $($rest)*)
    };
    (@ $function:ident [$($numbers:tt)*] wide $v:expr, $($rest:tt)*) => {
        call!(@ $function [$($numbers)* ($v >> 64) as u64, $v as u64,] $($rest)*)
    };
    (@ $function:ident [$($numbers:tt)*] m31 $v:expr, $($rest:tt)*) => {
        call!(@ $function [$($numbers)* $v.word(),] $($rest)*)
    };
    (@ $function:ident [$($numbers:tt)*] cm31 $v:expr, $($rest:tt)*) => {
        call!(@ $function [$($numbers)*] m31 $v.0, m31 $v.1, $($rest)*)
    };
    (@ $function:ident [$($numbers:tt)*] qm31 $v:expr, $($rest:tt)*) => {
        call!(@ $function [$($numbers)*] cm31 $v.0, cm31 $v.1, $($rest)*)
    };
    (@ $function:ident [$($numbers:tt)*] point $v:expr, $($rest:tt)*) => {
        call!(@ $function [$($numbers)*] m31 $v.x, m31 $v.y, $($rest)*)
    };
    (@ $function:ident [$($numbers:tt)*] secure_point $v:expr, $($rest:tt)*) => {
        call!(@ $function [$($numbers)*] qm31 $v.x, qm31 $v.y, $($rest)*)
    };
    (@ $function:ident [$($numbers:tt)*] index $v:expr, $($rest:tt)*) => {
        call!(@ $function [$($numbers)* $v.value() as u64,] $($rest)*)
    };
    (@ $function:ident [$($numbers:tt)*] coset $v:expr, $($rest:tt)*) => {
        call!(@ $function [$($numbers)*] index $v.initial_index, point $v.initial, index $v.step_size, point $v.step,
            number $v.log_size, $($rest)*)
    };
    (@ $function:ident [$($numbers:tt)*] iterator $v:expr, $($rest:tt)*) => {
        call!(@ $function [$($numbers)*] index $v.cur, index $v.step, number $v.remaining as u64, $($rest)*)
    };
    (@ $function:ident [$($numbers:tt)*] read $v:expr, $($rest:tt)*) => {
        call!(@ $function [$($numbers)* $v.as_ptr().cast(), crate::call::words($v),] $($rest)*)
    };
    (@ $function:ident [$($numbers:tt)*] write $v:expr, $($rest:tt)*) => {
        call!(@ $function [$($numbers)* $v.as_mut_ptr().cast(), crate::call::words($v),] $($rest)*)
    };
}

/// Calls a function of the C interface that takes slices, as `call` does.
macro_rules! call_with_slices {
    ($($call:tt)*) => {
        // SAFETY: a pointer and a length come from one borrowed slice, and borrowed slices that are written don't
        // overlap others. Their elements have the layout of words (`Word`, `Batch`, `u32`), and the library leaves there
        // what it found, words below P, or in a slice of `u32` any words.
        unsafe { call!($($call)*) }
    };
}

/// How many words a slice of elements is.
pub fn words<T>(slice: &[T]) -> u64 {
    (size_of_val(slice) / size_of::<u32>()) as u64
}

/// What an accepted call answers with.
pub trait Answer {
    type Reply: Reply;

    /// The values of an accepted reply.
    fn of(reply: Self::Reply) -> Self;
}

/// The answer of a call that may be refused.
pub fn answer<A: Answer>(reply: A::Reply) -> Result<A, Refusal> {
    match reply.refusal() {
        (0, _) => Ok(A::of(reply)),
        (number, position) => Err(Refusal::of(number, position)),
    }
}

/// The answer of a call that the library refuses on no arguments of these types.
pub fn accepted<A: Answer>(reply: A::Reply) -> A {
    answer(reply).unwrap_or_else(|refusal| panic!("the library refused good arguments with {refusal}"))
}

impl Answer for () {
    type Reply = tari_write_reply;

    fn of(_: tari_write_reply) {}
}

impl Answer for bool {
    type Reply = tari_bool_reply;

    fn of(reply: tari_bool_reply) -> bool {
        reply.value != 0
    }
}

impl Answer for u32 {
    type Reply = tari_u32_reply;

    fn of(reply: tari_u32_reply) -> u32 {
        reply.value
    }
}

impl Answer for usize {
    type Reply = tari_u64_reply;

    fn of(reply: tari_u64_reply) -> usize {
        reply.value as usize
    }
}
