//! What the tests and the benchmark share: the library's records and calls, the published files, and random numbers.
//! Neither the second implementation nor the benchmark's simple decoder is here; of the safe wrapper only the calls over
//! slices, which stand nearest to C.

#[path = "../../../bindings/rust/src/calls.rs"]
pub mod calls;
pub mod data;
#[path = "../../../bindings/rust/src/ffi.rs"]
pub mod ffi;
pub mod random;

/// The tables that a call is lent.
#[derive(Clone, Copy)]
pub struct Tables<'a> {
    pub first: &'a [u32],
    pub second: &'a [u32],
}

pub const NO_TABLES: Tables = Tables {
    first: &[],
    second: &[],
};
