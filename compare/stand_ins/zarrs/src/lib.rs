//! The modules in which zarrs' own files stand.

pub mod array;
