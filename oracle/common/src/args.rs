//! What a call takes and gives, as numbers.

use crate::element::{elements, Element};
use std::slice::Iter;
use stwo::core::circle::{CirclePoint, CirclePointIndex, Coset, CosetIterator};
use stwo::core::fields::cm31::CM31;
use stwo::core::fields::m31::M31;
use stwo::core::fields::qm31::QM31;

/// An answer of either side: 0 and 0 or the refusal, then the values.
#[derive(Debug, PartialEq, Eq)]
pub struct Answer {
    pub number: u32,
    pub position: u64,
    pub values: Vec<u64>,
}

/// The numbers of an input, taken from left to right.
pub struct Args<'a>(pub Iter<'a, i128>);

impl Args<'_> {
    /// The next number, which the kind of argument keeps within the type.
    pub fn take<T: TryFrom<i128>>(&mut self) -> T {
        let number = *self.0.next().expect("the entry's kinds give fewer numbers than are taken");
        T::try_from(number).ok().expect("the entry's kinds fit the types that are taken")
    }

    fn element<T: Element>(&mut self) -> T {
        let words: Vec<u32> = (0..T::WIDTH).map(|_| self.take()).collect();
        T::of(&words)
    }

    /// An element, its words known to be below P.
    pub fn m31(&mut self) -> M31 {
        self.element()
    }

    pub fn cm31(&mut self) -> CM31 {
        self.element()
    }

    pub fn qm31(&mut self) -> QM31 {
        self.element()
    }

    /// A point, its words known to be below P.
    pub fn point(&mut self) -> CirclePoint<M31> {
        CirclePoint { x: self.m31(), y: self.m31() }
    }

    pub fn secure_point(&mut self) -> CirclePoint<QM31> {
        CirclePoint { x: self.qm31(), y: self.qm31() }
    }

    pub fn index(&mut self) -> CirclePointIndex {
        CirclePointIndex(self.take())
    }

    /// A record of seven numbers.
    pub fn coset(&mut self) -> Coset {
        Coset {
            initial_index: self.index(),
            initial: self.point(),
            step_size: self.index(),
            step: self.point(),
            log_size: self.take(),
        }
    }

    pub fn coset_iterator(&mut self) -> CosetIterator<CirclePointIndex> {
        CosetIterator { cur: self.index(), step: self.index(), remaining: self.take() }
    }

    /// A slice: its length, then its words.
    pub fn slice<T: TryFrom<i128>>(&mut self) -> Vec<T> {
        let length: usize = self.take();
        (0..length).map(|_| self.take()).collect()
    }

    /// A slice that is a column of elements.
    pub fn column<T: Element>(&mut self) -> Vec<T> {
        elements(&self.slice::<u32>())
    }

    /// 128 bits, high word first.
    pub fn u128(&mut self) -> u128 {
        let high: u64 = self.take();
        let low: u64 = self.take();
        u128::from(high) << 64 | u128::from(low)
    }
}
