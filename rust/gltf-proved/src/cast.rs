//! Numbers as other numbers: what the readers' `into_u8`, `into_f32` and the like do.
use std::fmt;

use crate::accessor::{Item, Items};

/// A number that can stand for a fraction: an integer of 8 or 16 bits, or a float.
pub trait Number: Copy {
    /// The fraction that it means (glTF 2.0, section 3.6.2.2).
    fn fraction(self) -> f32;
    /// The number that it is.
    fn float(self) -> f32;
    /// The number that means a fraction, cut to what the type holds.
    fn of_fraction(fraction: f32) -> Self;
    /// An integer in parts of 65536; None of a float.
    fn parts(self) -> Option<i32>;
    /// The number that means 1.
    fn one() -> Self;
    /// The integer that has so many of these parts, at least 0 if it has no sign.
    fn of_parts(parts: i32) -> Self;

    /// The number of another type that means the same: between integers by a power of two, as the
    /// crate `gltf` does it.
    fn cast<T: Number>(self) -> T {
        match (self.parts(), T::of_fraction(0.0).parts()) {
            (Some(parts), Some(_)) => T::of_parts(parts),
            _ => T::of_fraction(self.fraction()),
        }
    }
}

macro_rules! integers {
    ($($number:ident: $most:literal, $part:literal;)*) => {$(
        impl Number for $number {
            fn fraction(self) -> f32 {
                (f32::from(self) / $most).max(-1.0)
            }

            fn float(self) -> f32 {
                f32::from(self)
            }

            fn of_fraction(fraction: f32) -> Self {
                // Such a cast stops at the least and the greatest number.
                (fraction * $most) as $number
            }

            fn parts(self) -> Option<i32> {
                Some(i32::from(self) * $part)
            }

            fn one() -> Self {
                $number::MAX
            }

            fn of_parts(parts: i32) -> Self {
                (parts.max(i32::from($number::MIN) * $part) / $part) as $number
            }
        }
    )*};
}

integers! {
    i8: 127.0, 512;
    u8: 255.0, 256;
    i16: 32767.0, 2;
    u16: 65535.0, 1;
}

impl Number for f32 {
    fn fraction(self) -> f32 {
        self
    }

    fn float(self) -> f32 {
        self
    }

    fn of_fraction(fraction: f32) -> Self {
        fraction
    }

    fn parts(self) -> Option<i32> {
        None
    }

    fn one() -> Self {
        1.0
    }

    fn of_parts(_parts: i32) -> Self {
        0.0
    }
}

/// Visits the items of an accessor, each of which is cast to a `T`.
#[derive(Clone)]
pub struct CastingIter<'a, T> {
    items: Items<'a>,
    cast: fn(&[u8]) -> T,
}

impl<'a, T> CastingIter<'a, T> {
    pub(crate) fn new(items: Items<'a>, cast: fn(&[u8]) -> T) -> Self {
        CastingIter { items, cast }
    }
}

impl<T> Iterator for CastingIter<'_, T> {
    type Item = T;

    fn next(&mut self) -> Option<T> {
        self.items.next().map(self.cast)
    }

    fn nth(&mut self, n: usize) -> Option<T> {
        self.items.nth(n).map(self.cast)
    }

    fn size_hint(&self) -> (usize, Option<usize>) {
        (self.items.len(), Some(self.items.len()))
    }
}

impl<T> ExactSizeIterator for CastingIter<'_, T> {}

impl<T: fmt::Debug> fmt::Debug for CastingIter<'_, T> {
    fn fmt(&self, f: &mut fmt::Formatter<'_>) -> fmt::Result {
        let mut left = self.items.clone();
        let mut list = f.debug_list();
        while let Some(item) = left.next() {
            list.entry(&(self.cast)(item));
        }
        list.finish()
    }
}

/// The number that begins a slice, cast.
pub(crate) fn cast_number<U, T>(slice: &[u8]) -> T
where
    U: Number + Item,
    T: Number,
{
    U::from_slice(slice).cast()
}

/// The array of numbers that begins a slice, each of them cast.
pub(crate) fn cast_array<U, T, const N: usize>(slice: &[u8]) -> [T; N]
where
    U: Number + Item,
    T: Number,
{
    <[U; N]>::from_slice(slice).map(Number::cast)
}

#[cfg(test)]
mod tests {
    use super::Number;

    #[test]
    fn integers_are_cast_by_powers_of_two() {
        assert_eq!(255u8.cast::<u16>(), 65280);
        assert_eq!(255u8.cast::<i8>(), 127);
        assert_eq!(255u8.cast::<i16>(), 32640);
        assert_eq!((-128i8).cast::<i16>(), -32768);
        assert_eq!((-5i8).cast::<u8>(), 0);
        assert_eq!(100i8.cast::<u16>(), 51200);
        assert_eq!((-1i16).cast::<i8>(), 0);
        assert_eq!(32767i16.cast::<u8>(), 255);
        assert_eq!(65535u16.cast::<i16>(), 32767);
        for number in i8::MIN..=i8::MAX {
            assert_eq!(number.cast::<i8>(), number);
        }
        for number in 0..=u16::MAX {
            assert_eq!(number.cast::<u16>(), number);
            assert_eq!(number.cast::<u8>(), (number / 256) as u8);
        }
    }

    #[test]
    fn floats_are_the_fractions() {
        assert_eq!(255u8.cast::<f32>(), 1.0);
        assert_eq!((-128i8).cast::<f32>(), -1.0);
        assert_eq!((-32768i16).cast::<f32>(), -1.0);
        assert_eq!(0.5f32.cast::<u8>(), 127);
        assert_eq!((-0.5f32).cast::<u16>(), 0);
        assert_eq!((-1.0f32).cast::<i8>(), -127);
        assert_eq!(f32::NAN.cast::<u8>(), 0);
        assert_eq!(7u8.float(), 7.0);
    }
}
