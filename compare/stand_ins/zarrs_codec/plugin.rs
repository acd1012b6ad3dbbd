//! Codecs made by their names.

use std::sync::{Arc, RwLock};

use zarrs_metadata::v2::MetadataV2;
use zarrs_metadata::v3::MetadataV3;
use zarrs_plugin::PluginCreateError;

use crate::{ArrayToArrayCodecTraits, ArrayToBytesCodecTraits, BytesToBytesCodecTraits};

#[derive(Debug, Clone)]
pub enum Codec {
    ArrayToArray(Arc<dyn ArrayToArrayCodecTraits>),
    ArrayToBytes(Arc<dyn ArrayToBytesCodecTraits>),
    BytesToBytes(Arc<dyn BytesToBytesCodecTraits>),
}

type Create = fn(&MetadataV3) -> Result<Codec, PluginCreateError>;

static CODECS: RwLock<Vec<(&str, Create)>> = RwLock::new(Vec::new());

/// Lets `Codec::from_metadata` make the codecs of that name.
pub fn register<T: CodecTraitsV3>(name: &'static str) {
    CODECS.write().expect("no writer fails").push((name, T::create));
}

impl Codec {
    pub fn from_metadata(metadata: &MetadataV3) -> Result<Self, PluginCreateError> {
        let codecs = CODECS.read().expect("no writer fails");
        match codecs.iter().find(|(name, _)| *name == metadata.name()) {
            Some((_, create)) => create(metadata),
            None => Err(PluginCreateError::from("no such codec")),
        }
    }
}

pub trait CodecTraitsV3 {
    fn create(metadata: &MetadataV3) -> Result<Codec, PluginCreateError>;
}

pub trait CodecTraitsV2 {
    fn create(metadata: &MetadataV2) -> Result<Codec, PluginCreateError>;
}

pub struct CodecPluginV3(pub Create);

impl CodecPluginV3 {
    pub fn new<T: CodecTraitsV3>() -> Self {
        Self(T::create)
    }
}

pub struct CodecPluginV2(pub fn(&MetadataV2) -> Result<Codec, PluginCreateError>);

impl CodecPluginV2 {
    pub fn new<T: CodecTraitsV2>() -> Self {
        Self(T::create)
    }
}
