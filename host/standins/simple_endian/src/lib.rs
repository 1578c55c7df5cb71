//! Stand-in for `simple_endian`: numbers of two and four bytes, high byte first.
#![allow(non_camel_case_types)]

/// Two bytes, high byte first.
#[derive(Debug, Clone, Copy)]
#[repr(transparent)]
pub struct u16be([u8; 2]);

/// Four bytes, high byte first.
#[derive(Debug, Clone, Copy)]
#[repr(transparent)]
pub struct u32be([u8; 4]);

impl From<u16be> for u16 {
    fn from(bytes: u16be) -> u16 {
        u16::from_be_bytes(bytes.0)
    }
}

impl From<u32be> for u32 {
    fn from(bytes: u32be) -> u32 {
        u32::from_be_bytes(bytes.0)
    }
}

#[cfg(test)]
mod tests {
    use super::*;

    #[test]
    fn high_byte_first() {
        assert_eq!(u16::from(u16be([1, 2])), 258);
        assert_eq!(u32::from(u32be([1, 2, 3, 4])), 16_909_060);
    }
}
