//! Numbers in the octets of a file, in the octet order the file says.

/// The order of the octets of a number.
#[derive(Clone, Copy, Debug, PartialEq, Eq)]
pub enum Order {
    Big,
    Little,
}

impl Order {
    /// The 16 bit number at a place, if the octets reach that far.
    pub fn u16(self, octets: &[u8], at: usize) -> Option<u16> {
        let number = *octets.get(at..)?.first_chunk()?;
        Some(match self {
            Order::Big => u16::from_be_bytes(number),
            Order::Little => u16::from_le_bytes(number),
        })
    }

    /// The 32 bit number at a place, if the octets reach that far.
    pub fn u32(self, octets: &[u8], at: usize) -> Option<u32> {
        let number = *octets.get(at..)?.first_chunk()?;
        Some(match self {
            Order::Big => u32::from_be_bytes(number),
            Order::Little => u32::from_le_bytes(number),
        })
    }

    /// A 32 bit number that is a length in octets.
    pub fn length(self, octets: &[u8], at: usize) -> Option<usize> {
        usize::try_from(self.u32(octets, at)?).ok()
    }
}

/// The 16 bit number at a place, in the order of the network.
pub fn u16_at(octets: &[u8], at: usize) -> Option<u16> {
    Order::Big.u16(octets, at)
}
