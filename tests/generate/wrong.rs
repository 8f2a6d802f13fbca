//! What a set can be refused by (request C-14): each number that a message of
//! type 0x00 can get, other types, and ends that are cut. Number 17 is not among
//! them, because type 0x00 goes with all modes, nor are 19 to 23, which a Void
//! chunk skips or cannot come to, nor 24 to 26, which are of fragments.

/// What is wrong with a message.
#[derive(Clone, Copy, Debug, PartialEq, Eq, PartialOrd, Ord)]
pub enum Wrong {
    /// A lone octet, or two to seven, at the end of the slice.
    LoneOctet,
    FewOctets,
    /// A Total Size below 8, past the slice, or above 65,280 and within it.
    SizeBelow8,
    SizePast,
    SizeAbove,
    /// The top bit of octet 2 is 0, with type 0x00 and another.
    TopBit,
    TopBitAndType,
    /// A type that check 4 lets in elsewhere, and one that it does not.
    KnownType(u8),
    UnknownType,
    Header,
    Words,
    Mode,
    Service,
    /// Tags that this number from 8 to 14 refuses.
    Tags(u32),
    /// Another channel has mode 1.
    Taken,
    Closed,
    /// A Void chunk with data, without Routing and with it.
    Data,
    RoutedData,
}

/// All of them, with each known type and each number of tags.
pub const ALL: [Wrong; 28] = [
    Wrong::LoneOctet,
    Wrong::FewOctets,
    Wrong::SizeBelow8,
    Wrong::SizePast,
    Wrong::SizeAbove,
    Wrong::TopBit,
    Wrong::TopBitAndType,
    Wrong::KnownType(0x01),
    Wrong::KnownType(0x02),
    Wrong::KnownType(0x03),
    Wrong::KnownType(0x18),
    Wrong::KnownType(0xC0),
    Wrong::UnknownType,
    Wrong::Header,
    Wrong::Words,
    Wrong::Mode,
    Wrong::Service,
    Wrong::Tags(8),
    Wrong::Tags(9),
    Wrong::Tags(10),
    Wrong::Tags(11),
    Wrong::Tags(12),
    Wrong::Tags(13),
    Wrong::Tags(14),
    Wrong::Taken,
    Wrong::Closed,
    Wrong::Data,
    Wrong::RoutedData,
];

impl Wrong {
    /// The number that it is meant to get.
    pub fn number(self) -> u32 {
        match self {
            Wrong::LoneOctet | Wrong::FewOctets => 2,
            Wrong::SizeBelow8 | Wrong::SizePast | Wrong::SizeAbove => 2,
            Wrong::TopBit | Wrong::TopBitAndType => 3,
            Wrong::KnownType(_) | Wrong::UnknownType => 4,
            Wrong::Header | Wrong::Words => 5,
            Wrong::Mode => 6,
            Wrong::Service => 7,
            Wrong::Tags(number) => number,
            Wrong::Taken => 15,
            Wrong::Closed => 16,
            Wrong::Data | Wrong::RoutedData => 18,
        }
    }

    /// Whether nothing can stand behind it.
    pub fn ends(self) -> bool {
        matches!(self, Wrong::LoneOctet | Wrong::FewOctets)
    }
}
