//! Memory that is lent to the library: every place, and some on either side, has a known value before the call, so that
//! any place that a call must leave alone can be seen to have stayed.

pub trait Cell: Copy + PartialEq + std::fmt::Debug {
    /// A value that no call would write by chance.
    fn mark(n: usize) -> Self;
}

impl Cell for u8 {
    fn mark(n: usize) -> u8 {
        0xa5 ^ (n as u8).wrapping_mul(29)
    }
}

impl Cell for u32 {
    fn mark(n: usize) -> u32 {
        0xd15e_a5e0 ^ n as u32
    }
}

impl Cell for i32 {
    fn mark(n: usize) -> i32 {
        0x715e_a5e0 ^ n as i32
    }
}

impl Cell for u64 {
    fn mark(n: usize) -> u64 {
        0xd15e_a5e0_0dd5_ea5e ^ n as u64
    }
}

const SIDE: usize = 4;

#[derive(Clone)]
pub struct Lent<T> {
    all: Vec<T>,
}

impl<T: Cell> Lent<T> {
    pub fn new(length: usize) -> Lent<T> {
        Lent { all: (0..length + 2 * SIDE).map(T::mark).collect() }
    }

    pub fn holding(values: &[T]) -> Lent<T> {
        let mut lent = Lent::new(values.len());
        lent.slice().copy_from_slice(values);
        lent
    }

    pub fn slice(&mut self) -> &mut [T] {
        let end = self.all.len() - SIDE;
        &mut self.all[SIDE..end]
    }

    pub fn seen(&self) -> &[T] {
        &self.all[SIDE..self.all.len() - SIDE]
    }

    /// The marks that a fresh one of this length has.
    pub fn marks(length: usize) -> Vec<T> {
        (SIDE..SIDE + length).map(T::mark).collect()
    }

    /// Whether the places on either side, and all from `named` on, still have their marks.
    pub fn rest_stayed(&self, named: usize) -> bool {
        let stays = |n: usize| self.all[n] == T::mark(n);
        (0..SIDE).all(stays) && (SIDE + named..self.all.len()).all(stays)
    }
}
