//! Source documents 000, 001 and 002, unchanged, taken from the folder that CLVM_RS_SRC names. `inside` is a child of 000's
//! module, so that it may read and set private fields.

pub mod allocator {
    include!(concat!(env!("CLVM_RS_SRC"), "/src/allocator.rs"));

    pub mod inside;
}

pub mod error {
    include!(concat!(env!("CLVM_RS_SRC"), "/src/error.rs"));
}

pub mod number {
    include!(concat!(env!("CLVM_RS_SRC"), "/src/number.rs"));
}

pub use allocator::NodePtr;
pub use allocator::inside::Theirs;
