//! What the reader of a channel returns.
use super::{Channel, Property};
use crate::accessor::{Accessor, DataType, Iter};
use crate::cast::{cast_array, cast_number, Number};
use crate::Buffer;

pub use crate::cast::CastingIter;

/// The times of keyframes, in seconds.
pub type ReadInputs<'a> = Iter<'a, f32>;
/// Where a node is.
pub type Translations<'a> = Iter<'a, [f32; 3]>;
/// How a node is scaled.
pub type Scales<'a> = Iter<'a, [f32; 3]>;

/// How a node is turned: quaternions x, y, z, w, as the file stores them. They are to be unit
/// quaternions, and no rule checks that.
#[derive(Clone, Debug)]
pub enum Rotations<'a> {
    /// Of 8 bits each.
    I8(Iter<'a, [i8; 4]>),
    /// Of 8 bits each, without a sign.
    U8(Iter<'a, [u8; 4]>),
    /// Of 16 bits each.
    I16(Iter<'a, [i16; 4]>),
    /// Of 16 bits each, without a sign.
    U16(Iter<'a, [u16; 4]>),
    /// As floats.
    F32(Iter<'a, [f32; 4]>),
}

/// Weights of morph targets, as the file stores them: for each keyframe as many as there are
/// targets.
#[derive(Clone, Debug)]
pub enum MorphTargetWeights<'a> {
    /// Of 8 bits.
    I8(Iter<'a, i8>),
    /// Of 8 bits, without a sign.
    U8(Iter<'a, u8>),
    /// Of 16 bits.
    I16(Iter<'a, i16>),
    /// Of 16 bits, without a sign.
    U16(Iter<'a, u16>),
    /// As floats.
    F32(Iter<'a, f32>),
}

/// The values of keyframes.
#[derive(Clone, Debug)]
pub enum ReadOutputs<'a> {
    /// Where a node is.
    Translations(Translations<'a>),
    /// How a node is turned.
    Rotations(Rotations<'a>),
    /// How a node is scaled.
    Scales(Scales<'a>),
    /// The weights of its morph targets.
    MorphTargetWeights(MorphTargetWeights<'a>),
}

type Quaternion<T> = [T; 4];
type Weight<T> = T;

/// The casts to each of the numbers.
macro_rules! casts {
    ($($name:ident: $item:ident;)*) => {$(
        impl<'a> $name<'a> {
            /// Of 8 bits.
            pub fn into_i8(self) -> CastingIter<'a, $item<i8>> {
                self.cast()
            }

            /// Of 8 bits, without a sign.
            pub fn into_u8(self) -> CastingIter<'a, $item<u8>> {
                self.cast()
            }

            /// Of 16 bits.
            pub fn into_i16(self) -> CastingIter<'a, $item<i16>> {
                self.cast()
            }

            /// Of 16 bits, without a sign.
            pub fn into_u16(self) -> CastingIter<'a, $item<u16>> {
                self.cast()
            }

            /// As floats: the fractions that integers mean.
            pub fn into_f32(self) -> CastingIter<'a, $item<f32>> {
                self.cast()
            }
        }
    )*};
}

casts! {
    Rotations: Quaternion;
    MorphTargetWeights: Weight;
}

impl<'a> Rotations<'a> {
    fn new(accessor: &Accessor<'a>) -> Option<Self> {
        match accessor.data_type() {
            DataType::I8 => accessor.items().map(Rotations::I8),
            DataType::U8 => accessor.items().map(Rotations::U8),
            DataType::I16 => accessor.items().map(Rotations::I16),
            DataType::U16 => accessor.items().map(Rotations::U16),
            DataType::F32 => accessor.items().map(Rotations::F32),
            DataType::U32 => None,
        }
    }

    fn cast<T: Number>(self) -> CastingIter<'a, [T; 4]> {
        match self {
            Rotations::I8(it) => it.cast(cast_array::<i8, T, 4>),
            Rotations::U8(it) => it.cast(cast_array::<u8, T, 4>),
            Rotations::I16(it) => it.cast(cast_array::<i16, T, 4>),
            Rotations::U16(it) => it.cast(cast_array::<u16, T, 4>),
            Rotations::F32(it) => it.cast(cast_array::<f32, T, 4>),
        }
    }
}

impl<'a> MorphTargetWeights<'a> {
    fn new(accessor: &Accessor<'a>) -> Option<Self> {
        match accessor.data_type() {
            DataType::I8 => accessor.items().map(MorphTargetWeights::I8),
            DataType::U8 => accessor.items().map(MorphTargetWeights::U8),
            DataType::I16 => accessor.items().map(MorphTargetWeights::I16),
            DataType::U16 => accessor.items().map(MorphTargetWeights::U16),
            DataType::F32 => accessor.items().map(MorphTargetWeights::F32),
            DataType::U32 => None,
        }
    }

    fn cast<T: Number>(self) -> CastingIter<'a, T> {
        match self {
            MorphTargetWeights::I8(it) => it.cast(cast_number::<i8, T>),
            MorphTargetWeights::U8(it) => it.cast(cast_number::<u8, T>),
            MorphTargetWeights::I16(it) => it.cast(cast_number::<i16, T>),
            MorphTargetWeights::U16(it) => it.cast(cast_number::<u16, T>),
            MorphTargetWeights::F32(it) => it.cast(cast_number::<f32, T>),
        }
    }
}

/// Reads the keyframes of a channel. A method returns None where they are of a type that the format
/// does not allow there, and where they cannot be read
/// ([`Accessor::read`](crate::Accessor::read) says why).
#[derive(Clone, Debug)]
pub struct Reader<'a> {
    channel: Channel<'a>,
}

impl<'a> Channel<'a> {
    /// Reads the keyframes. The bytes are those of the document: the function is never called, and
    /// is there for programs that were written for the crate `gltf`.
    pub fn reader<'s, F>(&self, _get_buffer_data: F) -> Reader<'a>
    where
        F: Clone + Fn(Buffer<'a>) -> Option<&'s [u8]>,
    {
        Reader { channel: self.clone() }
    }
}

impl<'a> Reader<'a> {
    /// The times of the keyframes.
    pub fn read_inputs(&self) -> Option<ReadInputs<'a>> {
        self.channel.sampler().input().items()
    }

    /// The values of the keyframes; of a cubic spline three for each.
    pub fn read_outputs(&self) -> Option<ReadOutputs<'a>> {
        let output = self.channel.sampler().output();
        match self.channel.target().property() {
            Property::Translation => output.items().map(ReadOutputs::Translations),
            Property::Rotation => Rotations::new(&output).map(ReadOutputs::Rotations),
            Property::Scale => output.items().map(ReadOutputs::Scales),
            Property::MorphTargetWeights => {
                MorphTargetWeights::new(&output).map(ReadOutputs::MorphTargetWeights)
            }
        }
    }
}
