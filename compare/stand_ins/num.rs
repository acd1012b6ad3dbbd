//! Stands in for the crate `num`: whether a number is odd.

pub trait Integer {
    fn is_odd(&self) -> bool;
}

impl Integer for usize {
    fn is_odd(&self) -> bool {
        self % 2 == 1
    }
}
