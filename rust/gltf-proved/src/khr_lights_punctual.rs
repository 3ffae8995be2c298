//! Lights (`KHR_lights_punctual`).
use crate::sys;

record! {
    /// A light.
    Light: gltf_light, GLTF_LIGHTS
}

/// Where a light shines.
#[derive(Clone, Copy, Debug, PartialEq)]
pub enum Kind {
    /// From far away, in one direction.
    Directional,
    /// From one point, in all directions.
    Point,
    /// From one point, in a cone.
    Spot {
        /// The angle from the middle where it begins to fall off, in radians.
        inner_cone_angle: f32,
        /// The angle from the middle where it ends, in radians.
        outer_cone_angle: f32,
    },
}

impl Light<'_> {
    /// Red, green and blue.
    pub fn color(&self) -> [f32; 3] {
        self.info.color.map(|number| number as f32)
    }

    /// How bright it is: in candela, and in lux if it is directional.
    pub fn intensity(&self) -> f32 {
        self.info.intensity as f32
    }

    /// How far it shines; None is without end.
    pub fn range(&self) -> Option<f32> {
        (self.info.range != 0.0).then_some(self.info.range as f32)
    }

    /// Where it shines.
    pub fn kind(&self) -> Kind {
        match self.info.r#type {
            sys::GLTF_DIRECTIONAL => Kind::Directional,
            sys::GLTF_POINT => Kind::Point,
            _ => Kind::Spot {
                inner_cone_angle: self.info.inner_cone_angle as f32,
                outer_cone_angle: self.info.outer_cone_angle as f32,
            },
        }
    }
}
