//! What the reader of a primitive returns.
use super::MorphTargets;
use crate::accessor::{Accessor, DataType, Dimensions, Item, Iter};
use crate::cast::{cast_array, Number};

pub use crate::cast::CastingIter;

/// Positions.
pub type ReadPositions<'a> = Iter<'a, [f32; 3]>;
/// Normals.
pub type ReadNormals<'a> = Iter<'a, [f32; 3]>;
/// Tangents: x, y, z, and 1 or -1 for which way the third axis points.
pub type ReadTangents<'a> = Iter<'a, [f32; 4]>;
/// By how much positions are moved.
pub type ReadPositionDisplacements<'a> = Iter<'a, [f32; 3]>;
/// By how much normals are moved.
pub type ReadNormalDisplacements<'a> = Iter<'a, [f32; 3]>;
/// By how much tangents are moved.
pub type ReadTangentDisplacements<'a> = Iter<'a, [f32; 3]>;

/// Colours, as the file stores them.
#[derive(Clone, Debug)]
pub enum ReadColors<'a> {
    /// Red, green and blue, of 8 bits each.
    RgbU8(Iter<'a, [u8; 3]>),
    /// Red, green and blue, of 16 bits each.
    RgbU16(Iter<'a, [u16; 3]>),
    /// Red, green and blue, as floats.
    RgbF32(Iter<'a, [f32; 3]>),
    /// With alpha, of 8 bits each.
    RgbaU8(Iter<'a, [u8; 4]>),
    /// With alpha, of 16 bits each.
    RgbaU16(Iter<'a, [u16; 4]>),
    /// With alpha, as floats.
    RgbaF32(Iter<'a, [f32; 4]>),
}

/// Indices, as the file stores them.
#[derive(Clone, Debug)]
pub enum ReadIndices<'a> {
    /// Of 8 bits.
    U8(Iter<'a, u8>),
    /// Of 16 bits.
    U16(Iter<'a, u16>),
    /// Of 32 bits.
    U32(Iter<'a, u32>),
}

/// Indices of joints, as the file stores them.
#[derive(Clone, Debug)]
pub enum ReadJoints<'a> {
    /// Of 8 bits each.
    U8(Iter<'a, [u8; 4]>),
    /// Of 16 bits each.
    U16(Iter<'a, [u16; 4]>),
}

/// Coordinates of textures, as the file stores them.
#[derive(Clone, Debug)]
pub enum ReadTexCoords<'a> {
    /// Of 8 bits each.
    U8(Iter<'a, [u8; 2]>),
    /// Of 16 bits each.
    U16(Iter<'a, [u16; 2]>),
    /// As floats.
    F32(Iter<'a, [f32; 2]>),
}

/// Weights of joints, as the file stores them.
#[derive(Clone, Debug)]
pub enum ReadWeights<'a> {
    /// Of 8 bits each.
    U8(Iter<'a, [u8; 4]>),
    /// Of 16 bits each.
    U16(Iter<'a, [u16; 4]>),
    /// As floats.
    F32(Iter<'a, [f32; 4]>),
}

/// Red, green and blue of a colour with alpha or without.
fn rgb<U: Number + Item, T: Number>(slice: &[u8]) -> [T; 3] {
    cast_array::<U, T, 3>(slice)
}

/// A colour without alpha, with the alpha that hides all.
fn opaque<U: Number + Item, T: Number>(slice: &[u8]) -> [T; 4] {
    let [red, green, blue] = rgb::<U, T>(slice);
    [red, green, blue, T::one()]
}

impl<'a> ReadColors<'a> {
    pub(super) fn new(accessor: &Accessor<'a>) -> Option<Self> {
        match (accessor.data_type(), accessor.dimensions()) {
            (DataType::U8, Dimensions::Vec3) => accessor.items().map(ReadColors::RgbU8),
            (DataType::U16, Dimensions::Vec3) => accessor.items().map(ReadColors::RgbU16),
            (DataType::F32, Dimensions::Vec3) => accessor.items().map(ReadColors::RgbF32),
            (DataType::U8, Dimensions::Vec4) => accessor.items().map(ReadColors::RgbaU8),
            (DataType::U16, Dimensions::Vec4) => accessor.items().map(ReadColors::RgbaU16),
            (DataType::F32, Dimensions::Vec4) => accessor.items().map(ReadColors::RgbaF32),
            _ => None,
        }
    }

    fn rgb<T: Number>(self) -> CastingIter<'a, [T; 3]> {
        match self {
            ReadColors::RgbU8(it) => it.cast(rgb::<u8, T>),
            ReadColors::RgbU16(it) => it.cast(rgb::<u16, T>),
            ReadColors::RgbF32(it) => it.cast(rgb::<f32, T>),
            ReadColors::RgbaU8(it) => it.cast(rgb::<u8, T>),
            ReadColors::RgbaU16(it) => it.cast(rgb::<u16, T>),
            ReadColors::RgbaF32(it) => it.cast(rgb::<f32, T>),
        }
    }

    fn rgba<T: Number>(self) -> CastingIter<'a, [T; 4]> {
        match self {
            ReadColors::RgbU8(it) => it.cast(opaque::<u8, T>),
            ReadColors::RgbU16(it) => it.cast(opaque::<u16, T>),
            ReadColors::RgbF32(it) => it.cast(opaque::<f32, T>),
            ReadColors::RgbaU8(it) => it.cast(cast_array::<u8, T, 4>),
            ReadColors::RgbaU16(it) => it.cast(cast_array::<u16, T, 4>),
            ReadColors::RgbaF32(it) => it.cast(cast_array::<f32, T, 4>),
        }
    }

    /// Red, green and blue of 8 bits, without alpha.
    pub fn into_rgb_u8(self) -> CastingIter<'a, [u8; 3]> {
        self.rgb()
    }

    /// Red, green and blue of 16 bits, without alpha.
    pub fn into_rgb_u16(self) -> CastingIter<'a, [u16; 3]> {
        self.rgb()
    }

    /// Red, green and blue as floats, without alpha.
    pub fn into_rgb_f32(self) -> CastingIter<'a, [f32; 3]> {
        self.rgb()
    }

    /// Red, green, blue and alpha of 8 bits.
    pub fn into_rgba_u8(self) -> CastingIter<'a, [u8; 4]> {
        self.rgba()
    }

    /// Red, green, blue and alpha of 16 bits.
    pub fn into_rgba_u16(self) -> CastingIter<'a, [u16; 4]> {
        self.rgba()
    }

    /// Red, green, blue and alpha as floats.
    pub fn into_rgba_f32(self) -> CastingIter<'a, [f32; 4]> {
        self.rgba()
    }
}

impl<'a> ReadIndices<'a> {
    pub(super) fn new(accessor: &Accessor<'a>) -> Option<Self> {
        match accessor.data_type() {
            DataType::U8 => accessor.items().map(ReadIndices::U8),
            DataType::U16 => accessor.items().map(ReadIndices::U16),
            DataType::U32 => accessor.items().map(ReadIndices::U32),
            _ => None,
        }
    }

    /// Of 32 bits.
    pub fn into_u32(self) -> CastingIter<'a, u32> {
        match self {
            ReadIndices::U8(it) => it.cast(|slice| u8::from_slice(slice).into()),
            ReadIndices::U16(it) => it.cast(|slice| u16::from_slice(slice).into()),
            ReadIndices::U32(it) => it.cast(u32::from_slice),
        }
    }
}

impl<'a> ReadJoints<'a> {
    pub(super) fn new(accessor: &Accessor<'a>) -> Option<Self> {
        match accessor.data_type() {
            DataType::U8 => accessor.items().map(ReadJoints::U8),
            DataType::U16 => accessor.items().map(ReadJoints::U16),
            _ => None,
        }
    }

    /// Of 16 bits each.
    pub fn into_u16(self) -> CastingIter<'a, [u16; 4]> {
        match self {
            ReadJoints::U8(it) => it.cast(|slice| <[u8; 4]>::from_slice(slice).map(u16::from)),
            ReadJoints::U16(it) => it.cast(<[u16; 4]>::from_slice),
        }
    }
}

impl<'a> ReadTexCoords<'a> {
    pub(super) fn new(accessor: &Accessor<'a>) -> Option<Self> {
        match accessor.data_type() {
            DataType::U8 => accessor.items().map(ReadTexCoords::U8),
            DataType::U16 => accessor.items().map(ReadTexCoords::U16),
            DataType::F32 => accessor.items().map(ReadTexCoords::F32),
            _ => None,
        }
    }

    fn cast<T: Number>(self) -> CastingIter<'a, [T; 2]> {
        match self {
            ReadTexCoords::U8(it) => it.cast(cast_array::<u8, T, 2>),
            ReadTexCoords::U16(it) => it.cast(cast_array::<u16, T, 2>),
            ReadTexCoords::F32(it) => it.cast(cast_array::<f32, T, 2>),
        }
    }

    /// Of 8 bits each.
    pub fn into_u8(self) -> CastingIter<'a, [u8; 2]> {
        self.cast()
    }

    /// Of 16 bits each.
    pub fn into_u16(self) -> CastingIter<'a, [u16; 2]> {
        self.cast()
    }

    /// As floats.
    pub fn into_f32(self) -> CastingIter<'a, [f32; 2]> {
        self.cast()
    }
}

impl<'a> ReadWeights<'a> {
    pub(super) fn new(accessor: &Accessor<'a>) -> Option<Self> {
        match accessor.data_type() {
            DataType::U8 => accessor.items().map(ReadWeights::U8),
            DataType::U16 => accessor.items().map(ReadWeights::U16),
            DataType::F32 => accessor.items().map(ReadWeights::F32),
            _ => None,
        }
    }

    fn cast<T: Number>(self) -> CastingIter<'a, [T; 4]> {
        match self {
            ReadWeights::U8(it) => it.cast(cast_array::<u8, T, 4>),
            ReadWeights::U16(it) => it.cast(cast_array::<u16, T, 4>),
            ReadWeights::F32(it) => it.cast(cast_array::<f32, T, 4>),
        }
    }

    /// Of 8 bits each.
    pub fn into_u8(self) -> CastingIter<'a, [u8; 4]> {
        self.cast()
    }

    /// Of 16 bits each.
    pub fn into_u16(self) -> CastingIter<'a, [u16; 4]> {
        self.cast()
    }

    /// As floats.
    pub fn into_f32(self) -> CastingIter<'a, [f32; 4]> {
        self.cast()
    }
}

/// Visits the morph targets of a primitive: by how much each moves positions, normals and tangents.
#[derive(Clone, Debug)]
pub struct ReadMorphTargets<'a> {
    pub(super) targets: MorphTargets<'a>,
}

impl<'a> Iterator for ReadMorphTargets<'a> {
    type Item = (
        Option<ReadPositionDisplacements<'a>>,
        Option<ReadNormalDisplacements<'a>>,
        Option<ReadTangentDisplacements<'a>>,
    );

    fn next(&mut self) -> Option<Self::Item> {
        let target = self.targets.next()?;
        let items = |accessor: Option<Accessor<'a>>| accessor?.items();
        Some((items(target.positions()), items(target.normals()), items(target.tangents())))
    }

    fn size_hint(&self) -> (usize, Option<usize>) {
        self.targets.size_hint()
    }
}

impl ExactSizeIterator for ReadMorphTargets<'_> {}
