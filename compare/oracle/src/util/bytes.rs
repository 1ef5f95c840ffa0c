/// Little-endian numbers from the start of a slice. A shorter slice panics, as an index out of it would.
pub trait FromSlice {
    fn from_le_slice(slice: &[u8]) -> Self;
}

impl FromSlice for u16 {
    fn from_le_slice(slice: &[u8]) -> Self {
        Self::from_le_bytes([slice[0], slice[1]])
    }
}

impl FromSlice for u32 {
    fn from_le_slice(slice: &[u8]) -> Self {
        Self::from_le_bytes([slice[0], slice[1], slice[2], slice[3]])
    }
}
