//! Stands in for num_traits: the one trait that source document 000 imports.

pub trait ToPrimitive {
    fn to_u32(&self) -> Option<u32>;
}
