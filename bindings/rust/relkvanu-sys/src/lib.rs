//! The functions, structs and numbers of `include/relkvanu.h`, which `bindings/generate` generates from it, and the library
//! behind them. The header says what each function takes and returns, and the conditions for the caller. The crate
//! `relkvanu` is a safe interface over this one.
#![allow(non_camel_case_types)]

mod bindings;
#[cfg(feature = "store")]
pub mod storage;
#[cfg(feature = "store")]
pub mod store;

pub use bindings::*;
