//! Stands in for the crate `zarrs_metadata`: a codec's name and its configuration, which is a list of named values here.

use zarrs_plugin::PluginCreateError;

#[derive(Debug, Clone, Default, PartialEq, Eq)]
pub struct Configuration(pub Vec<(&'static str, String)>);

impl Configuration {
    pub fn get(&self, name: &str) -> Option<&str> {
        self.0.iter().find(|(named, _)| *named == name).map(|(_, value)| value.as_str())
    }
}

/// A configuration read as the one of a codec.
pub trait TypedConfiguration: Sized {
    fn read(configuration: &Configuration) -> Result<Self, PluginCreateError>;
}

#[derive(Debug, Clone)]
struct Named {
    name: String,
    configuration: Configuration,
}

macro_rules! metadata {
    ($module:ident, $metadata:ident) => {
        pub mod $module {
            use super::{Configuration, Named, TypedConfiguration};
            use zarrs_plugin::PluginCreateError;

            #[derive(Debug, Clone)]
            pub struct $metadata(Named);

            impl $metadata {
                pub fn new_with_configuration(name: String, configuration: Configuration) -> Self {
                    Self(Named { name, configuration })
                }

                pub fn name(&self) -> &str {
                    &self.0.name
                }

                pub fn to_typed_configuration<T: TypedConfiguration>(&self) -> Result<T, PluginCreateError> {
                    T::read(&self.0.configuration)
                }

                /// Every codec of the comparison must be understood.
                pub fn must_understand(&self) -> bool {
                    true
                }
            }
        }
    };
}

metadata!(v2, MetadataV2);
metadata!(v3, MetadataV3);
