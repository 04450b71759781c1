//! Stands in for rand: the shapes of its traits, with nothing that samples.

pub trait Rng {
    fn random_range(&mut self, range: std::ops::Range<u32>) -> u32;
    fn random<T>(&mut self) -> T
    where
        distr::StandardUniform: distr::Distribution<T>;
}

pub mod distr {
    pub struct StandardUniform;

    pub trait Distribution<T> {
        fn sample<R: super::Rng + ?Sized>(&self, rng: &mut R) -> T;
    }
}
