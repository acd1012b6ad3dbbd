//! Stands in for the crate `inventory`: a plugin that is submitted is checked for its type, and the driver registers those
//! that it uses.

#[macro_export]
macro_rules! submit {
    ($plugin:expr) => {
        const _: fn() = || {
            let _ = $plugin;
        };
    };
}
