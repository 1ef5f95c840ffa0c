//! Only the types that the original names. Encrypted ranges are always empty here.
pub mod crypto {
    pub mod dsprot {
        #[derive(Debug, Clone, Copy, PartialEq, Eq)]
        pub enum EncryptionType {
            None,
        }

        #[derive(Debug, Clone)]
        pub struct EncryptedRange {
            pub start_address: u32,
            pub end_address: u32,
        }
    }
}
