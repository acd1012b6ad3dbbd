//! The codecs from arrays to arrays, whose own files are not here.

pub mod difference;
pub mod transpose;
