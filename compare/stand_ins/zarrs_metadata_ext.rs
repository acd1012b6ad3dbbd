//! Stands in for the crate `zarrs_metadata_ext`: the configurations of the codecs.

pub mod codec {
    pub mod bytes {
        use zarrs_metadata::{Configuration, TypedConfiguration};
        use zarrs_plugin::PluginCreateError;

        #[derive(Debug, Clone, Copy, PartialEq, Eq)]
        pub enum Endianness {
            Little,
            Big,
        }

        impl Endianness {
            pub fn native() -> Self {
                if cfg!(target_endian = "big") { Self::Big } else { Self::Little }
            }
        }

        pub struct BytesCodecConfigurationV1 {
            pub endian: Option<Endianness>,
        }

        #[non_exhaustive]
        pub enum BytesCodecConfiguration {
            V1(BytesCodecConfigurationV1),
        }

        impl From<BytesCodecConfiguration> for Configuration {
            fn from(configuration: BytesCodecConfiguration) -> Self {
                let BytesCodecConfiguration::V1(configuration) = configuration;
                Self(match configuration.endian {
                    Some(Endianness::Little) => vec![("endian", "little".to_string())],
                    Some(Endianness::Big) => vec![("endian", "big".to_string())],
                    None => vec![],
                })
            }
        }

        impl TypedConfiguration for BytesCodecConfiguration {
            fn read(configuration: &Configuration) -> Result<Self, PluginCreateError> {
                let endian = match configuration.get("endian") {
                    Some("little") => Some(Endianness::Little),
                    Some("big") => Some(Endianness::Big),
                    Some(_) => return Err(PluginCreateError::from("no such endian")),
                    None => None,
                };
                Ok(Self::V1(BytesCodecConfigurationV1 { endian }))
            }
        }
    }

    pub mod shuffle {
        use zarrs_metadata::{Configuration, TypedConfiguration};
        use zarrs_plugin::PluginCreateError;

        pub struct ShuffleCodecConfigurationV1 {
            pub elementsize: usize,
        }

        #[non_exhaustive]
        pub enum ShuffleCodecConfiguration {
            V1(ShuffleCodecConfigurationV1),
        }

        impl From<ShuffleCodecConfiguration> for Configuration {
            fn from(configuration: ShuffleCodecConfiguration) -> Self {
                let ShuffleCodecConfiguration::V1(configuration) = configuration;
                Self(vec![("elementsize", configuration.elementsize.to_string())])
            }
        }

        impl TypedConfiguration for ShuffleCodecConfiguration {
            fn read(configuration: &Configuration) -> Result<Self, PluginCreateError> {
                match configuration.get("elementsize").map(str::parse) {
                    Some(Ok(elementsize)) => Ok(Self::V1(ShuffleCodecConfigurationV1 { elementsize })),
                    _ => Err(PluginCreateError::from("no element size")),
                }
            }
        }
    }

    /// Configurations with nothing in them.
    macro_rules! empty {
        ($all:ident: $($case:ident($one:ident)),*) => {
            use zarrs_metadata::{Configuration, TypedConfiguration};
            use zarrs_plugin::PluginCreateError;

            $(
                pub struct $one {}

                impl TypedConfiguration for $one {
                    fn read(_configuration: &Configuration) -> Result<Self, PluginCreateError> {
                        Ok(Self {})
                    }
                }
            )*

            #[non_exhaustive]
            pub enum $all {
                $($case($one)),*
            }

            impl From<$all> for Configuration {
                fn from(_configuration: $all) -> Self {
                    Self::default()
                }
            }
        };
    }

    pub mod fletcher32 {
        empty!(Fletcher32CodecConfiguration: V1(Fletcher32CodecConfigurationV1));

        impl TypedConfiguration for Fletcher32CodecConfiguration {
            fn read(configuration: &Configuration) -> Result<Self, PluginCreateError> {
                Ok(Self::V1(TypedConfiguration::read(configuration)?))
            }
        }
    }

    pub mod crc32c {
        empty!(Crc32cCodecConfiguration: V1(Crc32cCodecConfigurationV1), Numcodecs(Crc32cCodecConfigurationNumcodecs));
    }
}
