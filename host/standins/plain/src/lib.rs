//! Stand-in for `plain`: a struct is read from the first bytes, and fails only when there are too few.

/// A struct that any bytes make.
///
/// # Safety
/// Every pattern of bytes is a value of the type, and the type has no padding.
pub unsafe trait Plain {}

/// There are too few bytes for the struct.
#[derive(Debug, Clone, Copy, PartialEq, Eq)]
pub struct TooFew;

/// The struct that the first bytes make.
pub fn from_bytes<T: Plain>(bytes: &[u8]) -> Result<&T, TooFew> {
    const { assert!(align_of::<T>() == 1) };
    if bytes.len() < size_of::<T>() {
        return Err(TooFew);
    }
    // SAFETY: there are enough bytes, T has alignment 1, and `Plain` promises the rest.
    Ok(unsafe { &*bytes.as_ptr().cast::<T>() })
}

#[cfg(test)]
mod tests {
    use super::*;

    #[derive(Debug, PartialEq)]
    #[repr(C)]
    struct Three {
        first: u8,
        rest: [u8; 2],
    }
    unsafe impl Plain for Three {}

    #[test]
    fn reads_the_first_bytes() {
        let made = Three {
            first: 1,
            rest: [2, 3],
        };
        assert_eq!(from_bytes::<Three>(&[1, 2, 3]), Ok(&made));
        assert_eq!(from_bytes::<Three>(&[1, 2, 3, 4]), Ok(&made));
        assert_eq!(from_bytes::<Three>(&[1, 2]), Err(TooFew));
    }
}
