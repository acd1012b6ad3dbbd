//! Stands in for zarrs' module `shuffle` around its codec.

mod shuffle_codec;

use std::sync::Arc;

use zarrs_codec::{Codec, CodecTraitsV3};
use zarrs_metadata::v3::MetadataV3;
use zarrs_plugin::PluginCreateError;

pub use shuffle_codec::ShuffleCodec;
pub use zarrs_metadata_ext::codec::shuffle::{ShuffleCodecConfiguration, ShuffleCodecConfigurationV1};

zarrs_plugin::impl_extension_aliases!(ShuffleCodec, v3: "numcodecs.shuffle", v2: "shuffle");

impl CodecTraitsV3 for ShuffleCodec {
    fn create(metadata: &MetadataV3) -> Result<Codec, PluginCreateError> {
        let configuration: ShuffleCodecConfiguration = metadata.to_typed_configuration()?;
        Ok(Codec::BytesToBytes(Arc::new(Self::new_with_configuration(&configuration)?)))
    }
}
