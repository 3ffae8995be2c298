//! What items are made of.
use crate::cast::Number;
use crate::sys;

/// The type of components (glTF 2.0, section 3.6.2.2).
#[derive(Clone, Copy, Debug, PartialEq, Eq, Hash)]
pub enum DataType {
    /// Signed bytes.
    I8,
    /// Unsigned bytes.
    U8,
    /// Signed integers of 16 bits.
    I16,
    /// Unsigned integers of 16 bits.
    U16,
    /// Unsigned integers of 32 bits.
    U32,
    /// Floats of 32 bits.
    F32,
}

impl DataType {
    pub(crate) fn of_number(number: u32) -> DataType {
        match number {
            sys::GLTF_I8 => DataType::I8,
            sys::GLTF_U8 => DataType::U8,
            sys::GLTF_I16 => DataType::I16,
            sys::GLTF_U16 => DataType::U16,
            sys::GLTF_U32 => DataType::U32,
            sys::GLTF_F32 => DataType::F32,
            _ => unreachable!("gltf.h has no component type {number}"),
        }
    }

    /// The number of it in the format: 5120 to 5126.
    pub fn as_gl_enum(self) -> u32 {
        match self {
            DataType::I8 => sys::GLTF_I8,
            DataType::U8 => sys::GLTF_U8,
            DataType::I16 => sys::GLTF_I16,
            DataType::U16 => sys::GLTF_U16,
            DataType::U32 => sys::GLTF_U32,
            DataType::F32 => sys::GLTF_F32,
        }
    }

    /// How many bytes a component has.
    pub fn size(self) -> usize {
        match self {
            DataType::I8 | DataType::U8 => 1,
            DataType::I16 | DataType::U16 => 2,
            DataType::U32 | DataType::F32 => 4,
        }
    }

    /// The component in these bytes as a float, as a fraction where it is normalized.
    pub(crate) fn float(self, bytes: &[u8], is_fraction: bool) -> f32 {
        fn of<T: Number + super::Item>(bytes: &[u8], is_fraction: bool) -> f32 {
            let number = T::from_slice(bytes);
            if is_fraction {
                number.fraction()
            } else {
                number.float()
            }
        }
        match self {
            DataType::I8 => of::<i8>(bytes, is_fraction),
            DataType::U8 => of::<u8>(bytes, is_fraction),
            DataType::I16 => of::<i16>(bytes, is_fraction),
            DataType::U16 => of::<u16>(bytes, is_fraction),
            DataType::U32 => <u32 as super::Item>::from_slice(bytes) as f32,
            DataType::F32 => <f32 as super::Item>::from_slice(bytes),
        }
    }
}

/// How many components an item has (glTF 2.0, section 3.6.2.2).
#[derive(Clone, Copy, Debug, PartialEq, Eq, Hash)]
pub enum Dimensions {
    /// One number.
    Scalar,
    /// Two numbers.
    Vec2,
    /// Three numbers.
    Vec3,
    /// Four numbers.
    Vec4,
    /// A matrix of two columns.
    Mat2,
    /// A matrix of three columns.
    Mat3,
    /// A matrix of four columns.
    Mat4,
}

impl Dimensions {
    pub(crate) fn of_info(components: u32, is_matrix: bool) -> Dimensions {
        match (components, is_matrix) {
            (1, false) => Dimensions::Scalar,
            (2, false) => Dimensions::Vec2,
            (3, false) => Dimensions::Vec3,
            (4, false) => Dimensions::Vec4,
            (4, true) => Dimensions::Mat2,
            (9, true) => Dimensions::Mat3,
            (16, true) => Dimensions::Mat4,
            _ => unreachable!("gltf.h has no items of {components} components"),
        }
    }

    /// How many components it has.
    pub fn multiplicity(self) -> usize {
        match self {
            Dimensions::Scalar => 1,
            Dimensions::Vec2 => 2,
            Dimensions::Vec3 => 3,
            Dimensions::Vec4 | Dimensions::Mat2 => 4,
            Dimensions::Mat3 => 9,
            Dimensions::Mat4 => 16,
        }
    }
}
