//! Stands in for the crate `zarrs_plugin`: the names of codecs.

use std::borrow::Cow;
use std::fmt;

#[derive(Debug, Clone, Copy, PartialEq, Eq)]
pub enum ZarrVersion {
    V2,
    V3,
}

/// Why a codec is not made.
#[derive(Debug, Clone)]
pub enum PluginCreateError {
    Other(String),
}

impl From<&str> for PluginCreateError {
    fn from(text: &str) -> Self {
        Self::Other(text.to_string())
    }
}

impl fmt::Display for PluginCreateError {
    fn fmt(&self, out: &mut fmt::Formatter<'_>) -> fmt::Result {
        let Self::Other(text) = self;
        out.write_str(text)
    }
}

pub trait ExtensionName {
    fn name(&self, version: ZarrVersion) -> Option<Cow<'static, str>>;

    fn name_v3(&self) -> Option<Cow<'static, str>> {
        self.name(ZarrVersion::V3)
    }
}

pub struct ExtensionAliases {
    pub default_name: Cow<'static, str>,
}

pub trait ExtensionAliasesV3 {
    fn aliases_v3() -> ExtensionAliases;
}

#[macro_export]
macro_rules! impl_extension_aliases {
    ($codec:ty, v3: $v3:literal $(, [$($alias:literal),* $(,)?])?, v2: $v2:literal $(,)?) => {
        impl $crate::ExtensionAliasesV3 for $codec {
            fn aliases_v3() -> $crate::ExtensionAliases {
                $crate::ExtensionAliases { default_name: ::std::borrow::Cow::Borrowed($v3) }
            }
        }

        impl $crate::ExtensionName for $codec {
            fn name(&self, version: $crate::ZarrVersion) -> Option<::std::borrow::Cow<'static, str>> {
                Some(::std::borrow::Cow::Borrowed(match version {
                    $crate::ZarrVersion::V2 => $v2,
                    $crate::ZarrVersion::V3 => $v3,
                }))
            }
        }
    };
}
