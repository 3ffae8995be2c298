//! Scenes and nodes.
use crate::file::or_none;
use crate::khr_lights_punctual::Light;
use crate::{iter, sys, Camera, Mesh, Skin};

mod transform;

pub use transform::Transform;

record! {
    /// A scene (glTF 2.0, section 5.27).
    Scene: gltf_scene, GLTF_SCENES
}

record! {
    /// A node (glTF 2.0, section 5.25).
    Node: gltf_node, GLTF_NODES
}

/// Visits the root nodes of a scene.
pub type Nodes<'a> = iter::Listed<'a, Node<'a>>;

/// Visits the children of a node.
pub type Children<'a> = iter::Listed<'a, Node<'a>>;

impl<'a> Scene<'a> {
    /// Its root nodes.
    pub fn nodes(&self) -> Nodes<'a> {
        let list = self.document.file().list(sys::GLTF_SCENE_NODES, self.index);
        iter::Listed::new(self.document, list, Node::new)
    }
}

impl<'a> Node<'a> {
    /// Its camera.
    pub fn camera(&self) -> Option<Camera<'a>> {
        or_none(self.info.camera).map(|index| Camera::new(self.document, index))
    }

    /// Its children. No rule refuses a node that is below itself: bound how deep you follow them.
    pub fn children(&self) -> Children<'a> {
        let list = self.document.file().list(sys::GLTF_NODE_CHILDREN, self.index);
        iter::Listed::new(self.document, list, Node::new)
    }

    /// Its light (`KHR_lights_punctual`).
    pub fn light(&self) -> Option<Light<'a>> {
        or_none(self.info.light).map(|index| Light::new(self.document, index))
    }

    /// Its mesh.
    pub fn mesh(&self) -> Option<Mesh<'a>> {
        or_none(self.info.mesh).map(|index| Mesh::new(self.document, index))
    }

    /// Its skin.
    pub fn skin(&self) -> Option<Skin<'a>> {
        or_none(self.info.skin).map(|index| Skin::new(self.document, index))
    }

    /// Where it is, below its parent.
    pub fn transform(&self) -> Transform {
        Transform::of_info(&self.info)
    }

    /// Its own weights of morph targets; None: those of the mesh apply.
    pub fn weights(&self) -> Option<&'a [f32]> {
        self.document.node_weights(self.index)
    }
}
