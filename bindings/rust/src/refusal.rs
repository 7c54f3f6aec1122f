// SPDX-License-Identifier: Apache-2.0
//! Why a call was refused.

use crate::raw;
use std::error::Error;
use std::fmt;

/// Why bytes do not begin with a path header.
#[derive(Clone, Copy, Debug, PartialEq, Eq, Hash)]
#[repr(u16)]
pub enum HeaderFault {
    /// The bytes end before the header does.
    Short = raw::SCION_SHORT,
    /// A reserved bit is set.
    Reserved = raw::SCION_RESERVED,
    /// An info field has the flag of a peering link, which this network does not have.
    PeerFlag = raw::SCION_PEER_FLAG,
    /// A hop field has a router alert flag, which this network does not have.
    AlertFlag = raw::SCION_ALERT_FLAG,
    /// The first segment is empty, or a segment follows an empty one.
    SegLens = raw::SCION_SEG_LENS,
    /// The segments have more than 64 hop fields together.
    TooManyHops = raw::SCION_TOO_MANY_HOPS,
    /// The index of the current info field or hop field is not below the number of fields.
    BadIndex = raw::SCION_BAD_INDEX,
}

impl HeaderFault {
    /// Its number.
    pub fn code(self) -> u16 {
        self as u16
    }

    pub(crate) fn from_code(code: u16) -> Self {
        match code {
            raw::SCION_SHORT => Self::Short,
            raw::SCION_RESERVED => Self::Reserved,
            raw::SCION_PEER_FLAG => Self::PeerFlag,
            raw::SCION_ALERT_FLAG => Self::AlertFlag,
            raw::SCION_SEG_LENS => Self::SegLens,
            raw::SCION_TOO_MANY_HOPS => Self::TooManyHops,
            raw::SCION_BAD_INDEX => Self::BadIndex,
            _ => unreachable!("{code} is no refusal of a header"),
        }
    }

    /// The length of a header, or why there is none.
    pub(crate) fn len_of(answer: raw::Answer) -> Result<usize, Self> {
        if answer.code == raw::SCION_DONE {
            Ok(answer.number.into())
        } else {
            Err(Self::from_code(answer.code))
        }
    }
}

impl fmt::Display for HeaderFault {
    fn fmt(&self, f: &mut fmt::Formatter<'_>) -> fmt::Result {
        write!(f, "no path header: {} {self:?}", self.code())
    }
}

impl Error for HeaderFault {}

/// Why a call was refused. Nothing has changed then.
#[derive(Clone, Copy, Debug, PartialEq, Eq, Hash)]
pub enum Refusal {
    /// There are more than 256 interfaces.
    BadCall,
    /// A wildcard address, an interface 0, or a key that is empty or has more than 64 bytes.
    BadField,
    /// Two interfaces have the same number.
    DuplicateIf,
    /// The packet has fewer bytes than its addresses need, or no path header after them.
    BadHeader(HeaderFault),
    /// The current hop field is not in the current info field's segment, a segment has a single hop
    /// field, or a packet from a host is not at the first hop field.
    IndexMismatch,
    /// The packet came over a link that this router does not own, or that is not the hop's way in.
    WrongIngress,
    /// The hop is past its expiry.
    Expired,
    /// The hop's authenticator is right under none of the keys that this AS accepts.
    BadMac,
    /// A packet from a host has another AS as its source, or a packet from outside has this one.
    SourceAs,
    /// The path ends in this AS and the packet is for another AS, or the other way round.
    DestinationAs,
    /// The path switches to another segment in this AS, and the packet did not come over a link.
    SwitchInside,
    /// The AS has no interface with the number of the hop's way out.
    UnknownEgress,
    /// A path may not join the links by which the packet comes in and leaves.
    LinkKinds,
    /// The link at the hop's way out is down.
    LinkDown,
}

impl Refusal {
    /// Its number.
    pub fn code(self) -> u16 {
        match self {
            Self::BadCall => raw::SCION_BAD_CALL,
            Self::BadField => raw::SCION_BAD_FIELD,
            Self::DuplicateIf => raw::SCION_DUPLICATE_IF,
            Self::BadHeader(_) => raw::SCION_BAD_HEADER,
            Self::IndexMismatch => raw::SCION_INDEX_MISMATCH,
            Self::WrongIngress => raw::SCION_WRONG_INGRESS,
            Self::Expired => raw::SCION_EXPIRED,
            Self::BadMac => raw::SCION_BAD_MAC,
            Self::SourceAs => raw::SCION_SOURCE_AS,
            Self::DestinationAs => raw::SCION_DESTINATION_AS,
            Self::SwitchInside => raw::SCION_SWITCH_INSIDE,
            Self::UnknownEgress => raw::SCION_UNKNOWN_EGRESS,
            Self::LinkKinds => raw::SCION_LINK_KINDS,
            Self::LinkDown => raw::SCION_LINK_DOWN,
        }
    }

    /// The refusal of an answer whose code is no result.
    pub(crate) fn of(answer: raw::Answer) -> Self {
        match answer.code {
            raw::SCION_BAD_CALL => Self::BadCall,
            raw::SCION_BAD_FIELD => Self::BadField,
            raw::SCION_DUPLICATE_IF => Self::DuplicateIf,
            raw::SCION_BAD_HEADER => Self::BadHeader(HeaderFault::from_code(answer.number)),
            raw::SCION_INDEX_MISMATCH => Self::IndexMismatch,
            raw::SCION_WRONG_INGRESS => Self::WrongIngress,
            raw::SCION_EXPIRED => Self::Expired,
            raw::SCION_BAD_MAC => Self::BadMac,
            raw::SCION_SOURCE_AS => Self::SourceAs,
            raw::SCION_DESTINATION_AS => Self::DestinationAs,
            raw::SCION_SWITCH_INSIDE => Self::SwitchInside,
            raw::SCION_UNKNOWN_EGRESS => Self::UnknownEgress,
            raw::SCION_LINK_KINDS => Self::LinkKinds,
            raw::SCION_LINK_DOWN => Self::LinkDown,
            code => unreachable!("{code} is no refusal of a router"),
        }
    }
}

impl fmt::Display for Refusal {
    fn fmt(&self, f: &mut fmt::Formatter<'_>) -> fmt::Result {
        write!(f, "refused: {} {self:?}", self.code())
    }
}

impl Error for Refusal {
    fn source(&self) -> Option<&(dyn Error + 'static)> {
        match self {
            Self::BadHeader(fault) => Some(fault),
            _ => None,
        }
    }
}
