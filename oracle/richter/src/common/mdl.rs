//! Stand-in: model.rs names alias models, and no map holds one.

use std::io::Read;

use crate::common::model::ModelFlags;
use thiserror::Error;

#[derive(Error, Debug)]
#[error("alias models are not read here")]
pub struct MdlFileError;

#[derive(Debug)]
pub struct AliasModel;

impl AliasModel {
    pub fn flags(&self) -> ModelFlags {
        ModelFlags::empty()
    }
}

pub fn load<R: Read>(_data: R) -> Result<AliasModel, MdlFileError> {
    Err(MdlFileError)
}
