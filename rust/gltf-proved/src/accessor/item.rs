//! The types of Rust that items can be read as.
use std::array;
use std::mem;

use super::DataType;

mod sealed {
    /// Numbers of which all bytes are a value, and arrays of them.
    pub trait Plain {}
}

/// What an item can be read as: a number of a component type, or an array of them. Those of
/// matrices are arrays of columns.
pub trait Item: Copy + sealed::Plain {
    /// The type of the components.
    const DATA_TYPE: DataType;
    /// How many components there are.
    const COMPONENTS: usize;

    /// The item that begins a slice. It panics if the slice has fewer bytes.
    fn from_slice(slice: &[u8]) -> Self;

    /// The item of zeros.
    fn zero() -> Self;
}

macro_rules! numbers {
    ($($number:ident $data_type:ident,)*) => {$(
        impl sealed::Plain for $number {}

        impl Item for $number {
            const DATA_TYPE: DataType = DataType::$data_type;
            const COMPONENTS: usize = 1;

            fn from_slice(slice: &[u8]) -> Self {
                let (mut bytes, size) = ([0; mem::size_of::<$number>()], mem::size_of::<$number>());
                bytes.copy_from_slice(&slice[..size]);
                $number::from_le_bytes(bytes)
            }

            fn zero() -> Self {
                0 as $number
            }
        }
    )*};
}

numbers! { i8 I8, u8 U8, i16 I16, u16 U16, u32 U32, f32 F32, }

impl<T: sealed::Plain, const N: usize> sealed::Plain for [T; N] {}

impl<T: Item, const N: usize> Item for [T; N] {
    const DATA_TYPE: DataType = T::DATA_TYPE;
    const COMPONENTS: usize = N * T::COMPONENTS;

    fn from_slice(slice: &[u8]) -> Self {
        array::from_fn(|index| T::from_slice(&slice[index * mem::size_of::<T>()..]))
    }

    fn zero() -> Self {
        [T::zero(); N]
    }
}
