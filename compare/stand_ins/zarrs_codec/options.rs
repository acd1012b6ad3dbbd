//! Options: whether checksums are tested.

#[derive(Debug, Clone, Copy)]
pub struct CodecOptions {
    validate_checksums: bool,
}

impl CodecOptions {
    pub fn new(validate_checksums: bool) -> Self {
        Self { validate_checksums }
    }

    pub fn validate_checksums(&self) -> bool {
        self.validate_checksums
    }
}

#[derive(Debug, Clone, Copy, Default)]
pub struct CodecMetadataOptions;

#[derive(Debug, Clone, Copy, Default)]
pub struct CodecSpecificOptions;
