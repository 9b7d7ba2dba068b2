use std::convert::TryFrom;
use std::error::Error;
use std::fmt;

/// An integer of at most 62 bits, which QUIC encodes in 1 to 8 bytes (RFC 9000 section 16).
///
/// ```
/// use quic_streams::VarInt;
///
/// assert_eq!(VarInt::from_u32(7).into_inner(), 7);
/// assert!(VarInt::from_u64(1 << 62).is_err());
/// ```
#[derive(Clone, Copy, Default, PartialEq, Eq, PartialOrd, Ord, Hash)]
pub struct VarInt(u64);

impl VarInt {
    /// The largest one, 2^62 - 1.
    pub const MAX: Self = Self((1 << 62) - 1);

    /// One from a number that always fits.
    #[must_use]
    pub const fn from_u32(number: u32) -> Self {
        Self(number as u64)
    }

    /// One from a number below 2^62.
    ///
    /// # Errors
    ///
    /// [`VarIntBoundsExceeded`] if the number is 2^62 or more.
    pub const fn from_u64(number: u64) -> Result<Self, VarIntBoundsExceeded> {
        if number <= Self::MAX.0 {
            Ok(Self(number))
        } else {
            Err(VarIntBoundsExceeded)
        }
    }

    /// The number.
    #[must_use]
    pub const fn into_inner(self) -> u64 {
        self.0
    }

    /// A number that the library returns, which is below 2^62 by its contract.
    pub(crate) fn returned(number: u64) -> Self {
        debug_assert!(number <= Self::MAX.0);
        Self(number)
    }
}

impl From<VarInt> for u64 {
    fn from(number: VarInt) -> Self {
        number.0
    }
}

impl From<u8> for VarInt {
    fn from(number: u8) -> Self {
        Self(number.into())
    }
}

impl From<u16> for VarInt {
    fn from(number: u16) -> Self {
        Self(number.into())
    }
}

impl From<u32> for VarInt {
    fn from(number: u32) -> Self {
        Self(number.into())
    }
}

impl TryFrom<u64> for VarInt {
    type Error = VarIntBoundsExceeded;

    fn try_from(number: u64) -> Result<Self, Self::Error> {
        Self::from_u64(number)
    }
}

impl TryFrom<usize> for VarInt {
    type Error = VarIntBoundsExceeded;

    fn try_from(number: usize) -> Result<Self, Self::Error> {
        Self::from_u64(number as u64)
    }
}

impl TryFrom<u128> for VarInt {
    type Error = VarIntBoundsExceeded;

    fn try_from(number: u128) -> Result<Self, Self::Error> {
        let number = u64::try_from(number).map_err(|_| VarIntBoundsExceeded)?;
        Self::from_u64(number)
    }
}

impl fmt::Debug for VarInt {
    fn fmt(&self, f: &mut fmt::Formatter<'_>) -> fmt::Result {
        self.0.fmt(f)
    }
}

impl fmt::Display for VarInt {
    fn fmt(&self, f: &mut fmt::Formatter<'_>) -> fmt::Result {
        self.0.fmt(f)
    }
}

/// A number is 2^62 or more.
#[derive(Clone, Copy, Debug, PartialEq, Eq)]
pub struct VarIntBoundsExceeded;

impl fmt::Display for VarIntBoundsExceeded {
    fn fmt(&self, f: &mut fmt::Formatter<'_>) -> fmt::Result {
        f.write_str("value too large for a variable-length integer")
    }
}

impl Error for VarIntBoundsExceeded {}
