//! Stands for the crate `enum_iterator`: the variants of a plain enum, in the order in which they are written.

pub use enum_iterator_derive::Sequence;

pub trait Sequence: Copy + 'static {
    const ALL: &'static [Self];
}

pub fn all<E: Sequence>() -> impl Iterator<Item = E> {
    E::ALL.iter().copied()
}
