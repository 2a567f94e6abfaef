//! An independent implementation of guarded transition systems, random models, and what is needed to compare
//! that implementation with the C calls of libcapi.a and to time both.

pub mod calls;
pub mod example;
pub mod guarded;
pub mod joined;
pub mod limits;
pub mod model_gen;
pub mod program;
pub mod random;
pub mod reference;
pub mod stored;
pub mod tree;
pub mod workloads;

#[cfg(feature = "capi")]
pub mod clock;
#[cfg(feature = "capi")]
pub mod ffi;
#[cfg(feature = "capi")]
pub mod stack;
