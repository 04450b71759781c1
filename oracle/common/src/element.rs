//! Elements of the three fields, and points over them, as words.

use stwo::core::circle::CirclePoint;
use stwo::core::fields::cm31::CM31;
use stwo::core::fields::m31::M31;
use stwo::core::fields::qm31::QM31;
use stwo::core::fields::Field;

pub trait Element: Field {
    /// How many words an element is.
    const WIDTH: usize;

    /// The element of these words, which aren't checked.
    fn of(words: &[u32]) -> Self;

    fn words(&self) -> Vec<u32>;
}

impl Element for M31 {
    const WIDTH: usize = 1;

    fn of(words: &[u32]) -> M31 {
        M31(words[0])
    }

    fn words(&self) -> Vec<u32> {
        vec![self.0]
    }
}

impl Element for CM31 {
    const WIDTH: usize = 2;

    fn of(words: &[u32]) -> CM31 {
        CM31(M31::of(&words[..1]), M31::of(&words[1..]))
    }

    fn words(&self) -> Vec<u32> {
        [self.0.words(), self.1.words()].concat()
    }
}

impl Element for QM31 {
    const WIDTH: usize = 4;

    fn of(words: &[u32]) -> QM31 {
        QM31(CM31::of(&words[..2]), CM31::of(&words[2..]))
    }

    fn words(&self) -> Vec<u32> {
        [self.0.words(), self.1.words()].concat()
    }
}

/// The elements of a column of words.
pub fn elements<T: Element>(words: &[u32]) -> Vec<T> {
    words.chunks_exact(T::WIDTH).map(T::of).collect()
}

/// The words of a column of elements.
pub fn words_of<T: Element>(elements: &[T]) -> Vec<u32> {
    elements.iter().flat_map(T::words).collect()
}

/// The point of these words, those of x and then those of y.
pub fn point<T: Element>(words: &[u32]) -> CirclePoint<T> {
    let (x, y) = words.split_at(T::WIDTH);
    CirclePoint { x: T::of(x), y: T::of(y) }
}

pub fn point_words<T: Element>(point: &CirclePoint<T>) -> Vec<u32> {
    [point.x.words(), point.y.words()].concat()
}
