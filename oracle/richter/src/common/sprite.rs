//! Stand-in: model.rs names sprites, and no map holds one.

use std::io::Read;

use cgmath::{Vector3, Zero};

#[derive(Debug)]
pub struct SpriteModel;

impl SpriteModel {
    pub fn min(&self) -> Vector3<f32> {
        Vector3::zero()
    }

    pub fn max(&self) -> Vector3<f32> {
        Vector3::zero()
    }
}

pub fn load<R: Read>(_data: R) -> SpriteModel {
    SpriteModel
}
