//! Shapes that follow from their uses in the original's `functions.rs`.
use std::collections::{BTreeMap, BTreeSet};

use ds_rom::crypto::dsprot;
use unarm::{Ins, ParseMode};

use super::Function;

#[derive(Debug, Clone, Copy)]
pub struct PoolConstant {
    pub address: u32,
    pub value: u32,
    pub usage: PoolConstantUsage,
}

#[derive(Debug, Clone, Copy, PartialEq, Eq)]
pub enum PoolConstantUsage {
    Call,
    Other,
}

#[derive(Debug, Clone)]
pub struct CalledFunction {
    pub ins: Ins,
    pub ins_code: u32,
    pub address: u32,
    pub thumb: bool,
}

/// Only `find_functions` reads it, which nothing here calls.
#[derive(Default)]
pub struct FunctionSearchOptions<'a> {
    pub start_address: Option<u32>,
    pub last_function_address: Option<u32>,
    pub end_address: Option<u32>,
    pub max_function_start_search_distance: u32,
    pub use_data_as_upper_bound: bool,
    pub function_addresses: Option<BTreeSet<u32>>,
    pub existing_functions: Option<&'a BTreeMap<u32, Function>>,
    pub overriden_function_sizes: Option<&'a BTreeMap<u32, u32>>,
    pub dsprot_encrypted_functions: Option<&'a BTreeMap<u32, dsprot::EncryptionType>>,
    pub dsprot_encrypted_ranges: &'a [dsprot::EncryptedRange],
    pub check_defs_uses: bool,
}

pub fn instruction_size(mode: ParseMode) -> u32 {
    match mode {
        ParseMode::Arm => 4,
        ParseMode::Thumb => 2,
    }
}
