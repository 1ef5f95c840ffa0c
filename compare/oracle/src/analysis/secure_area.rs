//! Thumb only: nothing here calls it.
use unarm::Ins;

#[derive(Clone, Copy, Default)]
pub struct SecureAreaState;

impl SecureAreaState {
    pub fn handle(self, _: u32, _: &Ins) -> Self {
        unimplemented!()
    }

    pub fn get_function(self) -> Option<SecureAreaFunction> {
        unimplemented!()
    }
}

pub struct SecureAreaFunction;

impl SecureAreaFunction {
    pub fn name(&self) -> &str {
        unimplemented!()
    }

    pub fn start(&self) -> u32 {
        unimplemented!()
    }

    pub fn end(&self) -> u32 {
        unimplemented!()
    }
}
