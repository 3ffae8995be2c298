//! Cameras.
use crate::sys;

record! {
    /// A camera (glTF 2.0, section 5.12).
    Camera: gltf_camera, GLTF_CAMERAS
}

/// What a camera sees.
#[derive(Clone, Copy, Debug)]
pub enum Projection {
    /// All that is near is as large as what is far.
    Orthographic(Orthographic),
    /// What is near is larger than what is far.
    Perspective(Perspective),
}

/// An orthographic camera (glTF 2.0, section 5.13).
#[derive(Clone, Copy, Debug)]
pub struct Orthographic {
    info: sys::gltf_camera,
}

/// A perspective camera (glTF 2.0, section 5.14).
#[derive(Clone, Copy, Debug)]
pub struct Perspective {
    info: sys::gltf_camera,
}

impl Camera<'_> {
    /// What it sees.
    pub fn projection(&self) -> Projection {
        let info = self.info;
        match info.orthographic {
            0 => Projection::Perspective(Perspective { info }),
            _ => Projection::Orthographic(Orthographic { info }),
        }
    }
}

impl Orthographic {
    /// Half of the width of what it sees.
    pub fn xmag(&self) -> f32 {
        self.info.xmag as f32
    }

    /// Half of the height of what it sees.
    pub fn ymag(&self) -> f32 {
        self.info.ymag as f32
    }

    /// How far it sees.
    pub fn zfar(&self) -> f32 {
        self.info.zfar as f32
    }

    /// From where on it sees.
    pub fn znear(&self) -> f32 {
        self.info.znear as f32
    }
}

impl Perspective {
    /// The width by the height of what it sees; None is that of the window.
    pub fn aspect_ratio(&self) -> Option<f32> {
        (self.info.aspect_ratio != 0.0).then_some(self.info.aspect_ratio as f32)
    }

    /// The vertical angle of what it sees, in radians.
    pub fn yfov(&self) -> f32 {
        self.info.yfov as f32
    }

    /// How far it sees; None is without end.
    pub fn zfar(&self) -> Option<f32> {
        (self.info.zfar != 0.0).then_some(self.info.zfar as f32)
    }

    /// From where on it sees.
    pub fn znear(&self) -> f32 {
        self.info.znear as f32
    }
}
