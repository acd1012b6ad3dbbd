//! Stands in for the crate `itertools`: iterators one after another.

#[macro_export]
macro_rules! chain {
    ($first:expr $(, $next:expr)* $(,)?) => {
        ::std::iter::IntoIterator::into_iter($first)$(.chain($next))*
    };
}
