//! The statuses of both libraries. Those with the same meaning have the same number.
use core::fmt;

macro_rules! errors {
    ($($(#[doc = $doc:literal])+ $name:ident = $number:literal, $words:literal;)+) => {
        /// Why a call of a library did nothing.
        #[derive(Clone, Copy, Debug, PartialEq, Eq, Hash)]
        #[non_exhaustive]
        pub enum Error {
            $($(#[doc = $doc])+ $name,)+
            /// A status that this crate doesn't know.
            Unknown(u32),
        }

        impl Error {
            pub(crate) fn of(status: u32) -> Error {
                match status {
                    $($number => Error::$name,)+
                    other => Error::Unknown(other),
                }
            }
        }

        impl fmt::Display for Error {
            fn fmt(&self, f: &mut fmt::Formatter<'_>) -> fmt::Result {
                match self {
                    $(Error::$name => f.write_str($words),)+
                    Error::Unknown(status) => write!(f, "status {status}"),
                }
            }
        }
    };
}

errors! {
    /// There is no end, or there are no devices.
    Empty = 1, "the handle is empty";
    /// The handle holds a value already.
    Full = 2, "the handle holds a value already";
    /// A call of the link is open: a poll that stopped at its budget.
    CallOpen = 3, "a call is open";
    /// No call of the link is open.
    NoCall = 4, "no call is open";
    /// An allocation failed.
    NoMemory = 5, "memory ran out";
    /// None of the calls of the link.
    BadCall = 6, "no such call";
    /// The frame is shorter than an Ethernet header.
    ShortFrame = 7, "the frame is shorter than 14 bytes";
    /// The frame is longer than the MTU and 18 bytes.
    LongFrame = 8, "the frame is longer than the MTU and 18 bytes";
    /// The destination is too small.
    ShortRoom = 9, "the destination is too small";
    /// No such peer.
    BadPeer = 10, "no such peer";
    /// The number of peers is out of range.
    BadPeers = 11, "the number of peers is out of range";
    /// The State Table isn't whole pages, at least one.
    BadTable = 12, "the State Table isn't whole pages of 4,096 bytes, at least one";
    /// The common section isn't whole pages.
    BadCommon = 13, "the common section isn't whole pages of 4,096 bytes";
    /// The output section isn't whole pages, at least one.
    BadOut = 14, "the output section isn't whole pages of 4,096 bytes, at least one";
    /// The State Table has no word for each peer.
    SmallTable = 15, "the State Table has no word for each peer";
    /// The region has more than 16,777,216 bytes.
    LargeRegion = 16, "the region has more than 16,777,216 bytes";
    /// The MTU isn't 256 to 65,535.
    BadMtu = 17, "the MTU isn't 256 to 65,535";
    /// No queue fits the output section.
    SmallOut = 18, "no queue fits the output section";
    /// No frame of this MTU fits the output section.
    NoSlot = 19, "no frame of this MTU fits the output section";
    /// The configuration space is another device's, or its protocol is another one.
    OtherDevice = 20, "the device or its protocol is another one";
    /// The Base Class isn't FFh.
    BadClass = 21, "the Base Class isn't FFh";
    /// A capability is outside of the configuration space.
    OutOfSpace = 22, "a capability is outside of the configuration space";
    /// The list of capabilities has a loop.
    Loop = 23, "the list of capabilities has a loop";
    /// The vendor capability has a wrong length.
    BadVendorLength = 24, "the vendor capability has a wrong length";
    /// There is no vendor capability.
    NoVendor = 25, "there is no vendor capability";
    /// Another access is next.
    OtherAccess = 26, "another access is next";
    /// The number of words is none of this burst.
    BadCount = 27, "the number of words is none of this burst";
    /// The version of the link isn't 1 to 3.
    BadVersion = 28, "the version of the link isn't 1 to 3";
    /// The vector is out of range.
    BadVector = 29, "the vector is out of range";
    /// There are more vectors than a peer may have.
    BadVectors = 40, "a peer has at most 64 vectors";
    /// The width or the offset is none of such an access.
    BadAccess = 41, "the width or the offset is none of such an access";
    /// None of the three windows.
    BadWindow = 42, "no such window";
    /// The base of the region isn't whole pages.
    BadBase = 43, "the base isn't whole pages, or the region ends after 64 bits";
}

impl core::error::Error for Error {}

/// Ok if the status is that of a call that was made.
pub(crate) fn done(status: u32) -> Result<(), Error> {
    if status == 0 {
        Ok(())
    } else {
        Err(Error::of(status))
    }
}
