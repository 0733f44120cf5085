//! What mbrman uses of bitvec 1: a vector of bits in u8 or u16 elements whose first bit is the highest of the
//! first element. `drain` takes the bits out at once; bitvec takes them out when the iterator is dropped.

use std::marker::PhantomData;
use std::ops::{Bound, RangeBounds};

pub mod prelude {
    pub use crate::{BitVec, Msb0};
}

/// The highest bit of an element comes first.
pub struct Msb0;

/// An element that holds bits.
pub trait BitStore: Copy {
    const BITS: usize;
    const ZERO: Self;
    /// The bit that is the n-th from the highest, counted from 0.
    fn bit(self, n: usize) -> bool;
    fn with_bit(self, n: usize) -> Self;
}

macro_rules! store {
    ($($element:ty)*) => {$(
        impl BitStore for $element {
            const BITS: usize = <$element>::BITS as usize;
            const ZERO: $element = 0;

            fn bit(self, n: usize) -> bool {
                self >> (<Self as BitStore>::BITS - 1 - n) & 1 == 1
            }

            fn with_bit(self, n: usize) -> $element {
                self | 1 << (<Self as BitStore>::BITS - 1 - n)
            }
        }
    )*};
}

store!(u8 u16);

pub struct BitVec<T, O> {
    raw: Vec<T>,
    len: usize,
    order: PhantomData<O>,
}

impl<T: BitStore> BitVec<T, Msb0> {
    #[cfg_attr(feature = "separate", inline(never))]
    pub fn with_capacity(bits: usize) -> Self {
        BitVec { raw: Vec::with_capacity(bits.div_ceil(T::BITS)), len: 0, order: PhantomData }
    }

    /// All bits of the elements.
    #[cfg_attr(feature = "separate", inline(never))]
    pub fn from_vec(raw: Vec<T>) -> Self {
        BitVec { len: raw.len() * T::BITS, raw, order: PhantomData }
    }

    #[cfg_attr(feature = "separate", inline(never))]
    pub fn push(&mut self, bit: bool) {
        if self.len % T::BITS == 0 {
            self.raw.push(T::ZERO);
        }
        if bit {
            let last = self.raw.len() - 1;
            self.raw[last] = self.raw[last].with_bit(self.len % T::BITS);
        }
        self.len += 1;
    }

    /// Takes out the bits of a range; those behind it move up.
    #[cfg_attr(feature = "separate", inline(never))]
    pub fn drain<R: RangeBounds<usize>>(&mut self, range: R) -> std::vec::IntoIter<bool> {
        let start = match range.start_bound() {
            Bound::Included(&n) => n,
            Bound::Excluded(&n) => n + 1,
            Bound::Unbounded => 0,
        };
        let end = match range.end_bound() {
            Bound::Included(&n) => n + 1,
            Bound::Excluded(&n) => n,
            Bound::Unbounded => self.len,
        };
        let mut bits = self.bits();
        let taken: Vec<bool> = bits.drain(start..end).collect();
        *self = BitVec::with_capacity(bits.len());
        self.extend(bits);
        taken.into_iter()
    }

    #[cfg_attr(feature = "separate", inline(never))]
    pub fn as_raw_slice(&self) -> &[T] {
        &self.raw
    }

    fn bits(&self) -> Vec<bool> {
        (0..self.len).map(|i| self.raw[i / T::BITS].bit(i % T::BITS)).collect()
    }
}

impl<T: BitStore> Extend<bool> for BitVec<T, Msb0> {
    #[cfg_attr(feature = "separate", inline(never))]
    fn extend<I: IntoIterator<Item = bool>>(&mut self, bits: I) {
        for bit in bits {
            self.push(bit);
        }
    }
}

impl<T: BitStore> IntoIterator for BitVec<T, Msb0> {
    type Item = bool;
    type IntoIter = std::vec::IntoIter<bool>;

    #[cfg_attr(feature = "separate", inline(never))]
    fn into_iter(self) -> Self::IntoIter {
        self.bits().into_iter()
    }
}

#[cfg(test)]
mod tests {
    use super::prelude::*;

    const A: [bool; 8] = [true, false, true, true, false, false, true, false];

    #[test]
    fn the_highest_bit_comes_first() {
        let bits: Vec<bool> = BitVec::<u8, Msb0>::from_vec(vec![0b10110010]).into_iter().collect();
        assert_eq!(bits, A);
        let bits: Vec<bool> = BitVec::<u16, Msb0>::from_vec(vec![0x8001]).into_iter().collect();
        assert_eq!(bits.iter().map(|&b| b as u32).sum::<u32>(), 2);
        assert!(bits[0] && bits[15]);
    }

    #[test]
    fn pushed_bits_fill_elements_from_the_highest_on() {
        let mut bv = BitVec::<u8, Msb0>::with_capacity(8);
        for bit in A {
            bv.push(bit);
        }
        assert_eq!(bv.as_raw_slice(), [0b10110010]);
        bv.push(true);
        assert_eq!(bv.as_raw_slice(), [0b10110010, 0b10000000]);
        let mut bv = BitVec::<u16, Msb0>::with_capacity(10);
        bv.extend(std::iter::repeat(false).take(6));
        bv.extend([true, false]);
        bv.extend(BitVec::<u8, Msb0>::from_vec(vec![0x34]));
        assert_eq!(bv.as_raw_slice(), [0x0234]);
    }

    #[test]
    fn draining_takes_a_range_and_moves_the_rest_up() {
        for start in 0..=16 {
            for end in start..=16 {
                let word = 0b1011_0010_0111_0101u16;
                let mut model: Vec<bool> = (0..16).map(|i| word >> (15 - i) & 1 == 1).collect();
                let mut bv = BitVec::<u16, Msb0>::from_vec(vec![word]);
                let taken: Vec<bool> = bv.drain(start..end).collect();
                assert_eq!(taken, model.drain(start..end).collect::<Vec<_>>());
                bv.extend([true, true]);
                model.extend([true, true]);
                assert_eq!(bv.into_iter().collect::<Vec<_>>(), model);
            }
        }
        let mut bv = BitVec::<u16, Msb0>::from_vec(vec![0xABCD]);
        assert_eq!(bv.drain(..8).skip(6).collect::<Vec<_>>(), [true, true]);
        assert_eq!(bv.as_raw_slice(), [0xCD00]);
        assert_eq!(bv.drain(..).count(), 8);
        assert!(bv.as_raw_slice().is_empty());
    }
}
