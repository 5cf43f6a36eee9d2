//! Stands in for malachite_bigint so that source documents 000 and 001 compile: the same stand-in as for num_bigint.

pub use num_bigint::BigInt;
