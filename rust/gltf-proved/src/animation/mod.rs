//! Animations.
use std::{fmt, vec};

use crate::accessor::Accessor;
use crate::file::or_none;
use crate::{iter, sys, Document, Node};

pub mod util;

pub use util::Reader;

record! {
    /// An animation (glTF 2.0, section 5.5).
    Animation: gltf_animation, GLTF_ANIMATIONS
}

/// Visits the channels of an animation.
pub type Channels<'a> = iter::Parts<'a, Channel<'a>>;

/// Visits the samplers of an animation.
pub type Samplers<'a> = vec::IntoIter<Sampler<'a>>;

/// What a channel animates (glTF 2.0, section 5.7.2).
#[derive(Clone, Copy, Debug, PartialEq, Eq, Hash)]
pub enum Property {
    /// Where a node is.
    Translation,
    /// How it is turned.
    Rotation,
    /// How it is scaled.
    Scale,
    /// The weights of its morph targets.
    MorphTargetWeights,
}

/// What is between two keyframes (glTF 2.0, section 5.8.2).
#[derive(Clone, Copy, Debug, PartialEq, Eq, Hash)]
pub enum Interpolation {
    /// A line.
    Linear,
    /// The value of the first.
    Step,
    /// A cubic spline: there are three values for each keyframe.
    CubicSpline,
}

impl<'a> Animation<'a> {
    /// Its channels.
    pub fn channels(&self) -> Channels<'a> {
        iter::Parts::new(self.document, self.index, self.info.channels, Channel::new)
    }

    /// Those of its samplers that a channel uses, in the order of the file. The library reaches a
    /// sampler through its channels alone.
    pub fn samplers(&self) -> Samplers<'a> {
        let mut found: Vec<Option<Sampler>> = vec![None; self.info.samplers];
        for channel in self.channels() {
            let sampler = channel.sampler();
            let index = sampler.index();
            found[index].get_or_insert(sampler);
        }
        found.into_iter().flatten().collect::<Vec<_>>().into_iter()
    }
}

/// A channel of an animation (glTF 2.0, section 5.6).
#[derive(Clone)]
pub struct Channel<'a> {
    document: &'a Document,
    animation: usize,
    index: usize,
    info: sys::gltf_channel,
}

/// What a channel animates (glTF 2.0, section 5.7).
#[derive(Clone, Debug)]
pub struct Target<'a> {
    channel: Channel<'a>,
}

/// The keyframes of a channel (glTF 2.0, section 5.8).
#[derive(Clone, Debug)]
pub struct Sampler<'a> {
    channel: Channel<'a>,
}

impl<'a> Channel<'a> {
    fn new(document: &'a Document, animation: usize, index: usize) -> Self {
        Channel { document, animation, index, info: document.file().part_info(animation, index) }
    }

    /// The animation that it is a channel of.
    pub fn animation(&self) -> Animation<'a> {
        Animation::new(self.document, self.animation)
    }

    /// The position of it in its animation.
    pub fn index(&self) -> usize {
        self.index
    }

    /// Its keyframes.
    pub fn sampler(&self) -> Sampler<'a> {
        Sampler { channel: self.clone() }
    }

    /// What it animates.
    pub fn target(&self) -> Target<'a> {
        Target { channel: self.clone() }
    }

    /// The extras, as JSON text.
    pub fn extras(&self) -> Option<String> {
        self.document.file().json(sys::GLTF_CHANNELS, self.animation, self.index, None)
    }
}

impl fmt::Debug for Channel<'_> {
    fn fmt(&self, f: &mut fmt::Formatter<'_>) -> fmt::Result {
        f.debug_struct("Channel")
            .field("animation", &self.animation)
            .field("index", &self.index)
            .finish()
    }
}

impl<'a> Target<'a> {
    /// The animation that it belongs to.
    pub fn animation(&self) -> Animation<'a> {
        self.channel.animation()
    }

    /// The node that is animated. None: ignore the channel.
    pub fn node(&self) -> Option<Node<'a>> {
        or_none(self.channel.info.node).map(|index| Node::new(self.channel.document, index))
    }

    /// What of the node is animated.
    pub fn property(&self) -> Property {
        match self.channel.info.path {
            sys::GLTF_PATH_TRANSLATION => Property::Translation,
            sys::GLTF_PATH_ROTATION => Property::Rotation,
            sys::GLTF_PATH_SCALE => Property::Scale,
            _ => Property::MorphTargetWeights,
        }
    }
}

impl<'a> Sampler<'a> {
    /// The animation that it belongs to.
    pub fn animation(&self) -> Animation<'a> {
        self.channel.animation()
    }

    /// The position of it in its animation.
    pub fn index(&self) -> usize {
        self.channel.info.sampler
    }

    /// The accessor of the times, in seconds.
    pub fn input(&self) -> Accessor<'a> {
        Accessor::new(self.channel.document, self.channel.info.input)
    }

    /// What is between two keyframes.
    pub fn interpolation(&self) -> Interpolation {
        match self.channel.info.interpolation {
            sys::GLTF_STEP => Interpolation::Step,
            sys::GLTF_CUBIC_SPLINE => Interpolation::CubicSpline,
            _ => Interpolation::Linear,
        }
    }

    /// The accessor of the values.
    pub fn output(&self) -> Accessor<'a> {
        Accessor::new(self.channel.document, self.channel.info.output)
    }

    /// The extras, as JSON text.
    pub fn extras(&self) -> Option<String> {
        let (animation, kind) = (self.channel.animation, sys::GLTF_ANIMATION_SAMPLERS);
        self.channel.document.file().json(kind, animation, self.index(), None)
    }
}
