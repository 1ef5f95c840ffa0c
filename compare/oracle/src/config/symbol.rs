//! The symbols that `find_functions` collects: nothing here calls it.
use snafu::Snafu;

use crate::analysis::{functions::Function, jump_table::JumpTable};

#[derive(Debug, Snafu)]
pub enum SymbolMapError {
    #[snafu(display("No symbols here"))]
    NoSymbols,
}

pub enum SymData {
    Byte { count: Option<u32> },
}

pub struct Symbol {
    pub name: String,
}

pub struct SymbolMap;

impl SymbolMap {
    pub fn by_address(&self, _: u32) -> Result<Option<(u32, &Symbol)>, SymbolMapError> {
        unimplemented!()
    }

    pub fn add_function(&mut self, _: &Function) {
        unimplemented!()
    }

    pub fn add_label(&mut self, _: u32, _: bool) -> Result<(), SymbolMapError> {
        unimplemented!()
    }

    pub fn add_pool_constant(&mut self, _: u32) -> Result<(), SymbolMapError> {
        unimplemented!()
    }

    pub fn add_jump_table(&mut self, _: &JumpTable) -> Result<(), SymbolMapError> {
        unimplemented!()
    }

    pub fn add_skip_data(&mut self, _: Option<String>, _: u32, _: SymData) -> Result<(), SymbolMapError> {
        unimplemented!()
    }
}
