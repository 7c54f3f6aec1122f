// SPDX-License-Identifier: Apache-2.0
//! Whole packets, as they are on the wire: common header, address header, path header and payload.

use crate::raw;
use crate::{Arrival, HeaderFault, Outcome, Refusal, Router};
use std::error::Error;
use std::fmt;
use std::net::IpAddr;

/// The most bytes of the headers in front of a path header.
const MAX_FRONT_LEN: usize = 60;

/// The type of the addresses of services; those of IPv4 and IPv6 have 0.
const SERVICE: u8 = 1;

/// The address of a host in its AS.
#[derive(Clone, Copy, Debug, PartialEq, Eq, Hash)]
pub struct Host {
    kind: u8,
    len: u8,
    bytes: [u8; 16],
}

impl Host {
    /// The address of this type, below 4, and these bytes, 4, 8, 12 or 16; else none.
    pub fn new(kind: u8, bytes: &[u8]) -> Option<Self> {
        if kind > 3 || !matches!(bytes.len(), 4 | 8 | 12 | 16) {
            return None;
        }
        let mut room = [0; 16];
        room[..bytes.len()].copy_from_slice(bytes);
        let len = bytes.len() as u8;
        Some(Self {
            kind,
            len,
            bytes: room,
        })
    }

    /// The address of the service with this number.
    pub fn service(number: u16) -> Self {
        let [high, low] = number.to_be_bytes();
        let mut bytes = [0; 16];
        bytes[..2].copy_from_slice(&[high, low]);
        Self {
            kind: SERVICE,
            len: 4,
            bytes,
        }
    }

    /// Its type.
    pub fn kind(&self) -> u8 {
        self.kind
    }

    /// Its bytes.
    pub fn bytes(&self) -> &[u8] {
        &self.bytes[..self.len.into()]
    }

    fn record(&self) -> raw::Host {
        raw::Host {
            kind: self.kind,
            len: self.len,
            bytes: self.bytes,
        }
    }

    fn of(record: raw::Host) -> Self {
        Self {
            kind: record.kind,
            len: record.len,
            bytes: record.bytes,
        }
    }
}

impl From<IpAddr> for Host {
    fn from(address: IpAddr) -> Self {
        let mut bytes = [0; 16];
        let len = match address {
            IpAddr::V4(it) => {
                bytes[..4].copy_from_slice(&it.octets());
                4
            }
            IpAddr::V6(it) => {
                bytes = it.octets();
                16
            }
        };
        Self {
            kind: 0,
            len,
            bytes,
        }
    }
}

/// What a whole packet says besides its path and its payload.
#[derive(Clone, Copy, Debug, PartialEq, Eq, Hash)]
pub struct PacketInfo {
    /// The destination AS: 16 bits of ISD, then 48 of AS number.
    pub destination: u64,
    /// The source AS.
    pub source: u64,
    /// The destination host.
    pub destination_host: Host,
    /// The source host.
    pub source_host: Host,
    /// The number of the protocol with which the payload begins.
    pub next_header: u8,
    /// The traffic class.
    pub traffic_class: u8,
    /// The flow, below 2^20.
    pub flow_id: u32,
    /// Two reserved bytes, as a number.
    pub reserved: u16,
}

impl PacketInfo {
    fn record(&self) -> raw::PacketInfo {
        raw::PacketInfo {
            destination: self.destination,
            source: self.source,
            flow_id: self.flow_id,
            reserved: self.reserved,
            path_start: 0,
            traffic_class: self.traffic_class,
            next_header: self.next_header,
            destination_host: self.destination_host.record(),
            source_host: self.source_host.record(),
        }
    }

    fn of(record: &raw::PacketInfo) -> Self {
        Self {
            destination: record.destination,
            source: record.source,
            destination_host: Host::of(record.destination_host),
            source_host: Host::of(record.source_host),
            next_header: record.next_header,
            traffic_class: record.traffic_class,
            flow_id: record.flow_id,
            reserved: record.reserved,
        }
    }
}

/// A whole packet.
#[derive(Clone, Copy, Debug, PartialEq, Eq)]
pub struct WholePacket<'a> {
    /// What it says.
    pub info: PacketInfo,
    /// The bytes of its path header.
    pub path: &'a [u8],
    /// Its payload.
    pub payload: &'a [u8],
}

impl<'a> WholePacket<'a> {
    /// The packet that these bytes are.
    ///
    /// # Errors
    /// The first reason why they are none.
    pub fn read(bytes: &'a [u8]) -> Result<Self, PacketFault> {
        let mut record = raw::PacketInfo::default();
        // SAFETY: the slice lives and is only read, and nobody else borrows the record.
        let given =
            unsafe { raw::scion_whole_packet_read(bytes.as_ptr(), bytes.len(), &mut record) };
        let end = PacketFault::number_of(given)?;
        let (headers, payload) = bytes.split_at(end);
        let path = &headers[record.path_start.into()..];
        Ok(Self {
            info: PacketInfo::of(&record),
            path,
            payload,
        })
    }

    /// The bytes of this packet.
    ///
    /// # Errors
    /// The flow is not below 2^20, the path begins with no path header, or the payload has more
    /// than 65,535 bytes.
    pub fn to_bytes(&self) -> Result<Vec<u8>, PacketFault> {
        let record = self.info.record();
        let mut room = vec![0; MAX_FRONT_LEN + self.path.len() + self.payload.len()];
        let (bytes, len) = (room.as_mut_ptr(), room.len());
        let (path, payload) = (self.path, self.payload);
        // SAFETY: the record and both slices live, and the room lies apart from them.
        let given = unsafe {
            raw::scion_whole_packet_write(
                &record,
                path.as_ptr(),
                path.len(),
                payload.as_ptr(),
                payload.len(),
                bytes,
                len,
            )
        };
        room.truncate(PacketFault::number_of(given)? + payload.len());
        Ok(room)
    }
}

/// Replaces a whole packet by the reply to it: hosts and ASes are exchanged, the path is that of
/// the way back, and the payload stays.
///
/// # Errors
/// The first reason why the bytes are no whole packet; then none has changed.
pub fn whole_packet_reply(bytes: &mut [u8]) -> Result<(), PacketFault> {
    // SAFETY: nobody else borrows the slice.
    let given = unsafe { raw::scion_whole_packet_reply(bytes.as_mut_ptr(), bytes.len()) };
    PacketFault::number_of(given).map(drop)
}

impl Router {
    /// One step on a whole packet, in place, at the second `now`.
    ///
    /// # Errors
    /// The first reason why the router, the way in or the packet is refused; then no byte of the
    /// packet has changed. Else only bytes of its path header may have.
    pub fn whole_packet_step(
        &self,
        now: u32,
        arrival: Arrival,
        packet: &mut [u8],
    ) -> Result<Outcome, TurnRefusal> {
        let table = self.table();
        let parts = self.parts(&table);
        let (arrival, interface) = arrival.numbers();
        let (bytes, len) = (packet.as_mut_ptr(), packet.len());
        // SAFETY: the slices of the parts and the packet live, and only the packet is written.
        let given =
            unsafe { raw::scion_whole_packet_step(&parts, now, arrival, interface, bytes, len) };
        match PacketFault::of(given) {
            Some(fault) if given.code != raw::SCION_BAD_FIELD => Err(TurnRefusal::Packet(fault)),
            _ => Outcome::of(given).map_err(TurnRefusal::Router),
        }
    }
}

/// Why bytes are no whole packet, or why one has no bytes.
#[derive(Clone, Copy, Debug, PartialEq, Eq, Hash)]
pub enum PacketFault {
    /// There are fewer than 12 bytes, or fewer than the addresses of ASes and hosts need.
    ShortPacket,
    /// The version is not 0.
    BadVersion,
    /// The type of the path is not that of a SCION path.
    BadPathType,
    /// What begins behind the addresses is no path header.
    BadHeader(HeaderFault),
    /// The headers don't have the length that the packet announces.
    BadHeaderLength,
    /// The payload does not have the length that the packet announces.
    BadPayloadLength,
    /// A flow is not below 2^20.
    BadField,
    /// A payload that was to be written has more than 65,535 bytes.
    PayloadTooLarge,
    /// The room is shorter than the packet that was to be written.
    RoomTooSmall,
}

impl PacketFault {
    /// Its number.
    pub fn code(self) -> u16 {
        match self {
            Self::ShortPacket => raw::SCION_SHORT_PACKET,
            Self::BadVersion => raw::SCION_BAD_VERSION,
            Self::BadPathType => raw::SCION_BAD_PATH_TYPE,
            Self::BadHeader(_) => raw::SCION_BAD_HEADER,
            Self::BadHeaderLength => raw::SCION_BAD_HEADER_LENGTH,
            Self::BadPayloadLength => raw::SCION_BAD_PAYLOAD_LENGTH,
            Self::BadField => raw::SCION_BAD_FIELD,
            Self::PayloadTooLarge => raw::SCION_PAYLOAD_TOO_LARGE,
            Self::RoomTooSmall => raw::SCION_PACKET_ROOM_TOO_SMALL,
        }
    }

    /// The refusal of a packet that an answer has, if it has one.
    fn of(answer: raw::Answer) -> Option<Self> {
        let fault = match answer.code {
            raw::SCION_SHORT_PACKET => Self::ShortPacket,
            raw::SCION_BAD_VERSION => Self::BadVersion,
            raw::SCION_BAD_PATH_TYPE => Self::BadPathType,
            raw::SCION_BAD_HEADER => Self::BadHeader(HeaderFault::from_code(answer.number)),
            raw::SCION_BAD_HEADER_LENGTH => Self::BadHeaderLength,
            raw::SCION_BAD_PAYLOAD_LENGTH => Self::BadPayloadLength,
            raw::SCION_BAD_FIELD => Self::BadField,
            raw::SCION_PAYLOAD_TOO_LARGE => Self::PayloadTooLarge,
            raw::SCION_PACKET_ROOM_TOO_SMALL => Self::RoomTooSmall,
            _ => return None,
        };
        Some(fault)
    }

    /// The number of an answer, or its refusal.
    fn number_of(answer: raw::Answer) -> Result<usize, Self> {
        match Self::of(answer) {
            Some(fault) => Err(fault),
            None => Ok(answer.number.into()),
        }
    }
}

impl fmt::Display for PacketFault {
    fn fmt(&self, f: &mut fmt::Formatter<'_>) -> fmt::Result {
        write!(f, "no whole packet: {} {self:?}", self.code())
    }
}

impl Error for PacketFault {}

/// Why a router refuses a whole packet.
#[derive(Clone, Copy, Debug, PartialEq, Eq, Hash)]
pub enum TurnRefusal {
    /// The bytes are no whole packet.
    Packet(PacketFault),
    /// There is no such router, or a check of it fails.
    Router(Refusal),
}

impl TurnRefusal {
    /// Its number.
    pub fn code(self) -> u16 {
        match self {
            Self::Packet(fault) => fault.code(),
            Self::Router(refusal) => refusal.code(),
        }
    }
}

impl fmt::Display for TurnRefusal {
    fn fmt(&self, f: &mut fmt::Formatter<'_>) -> fmt::Result {
        match self {
            Self::Packet(fault) => fault.fmt(f),
            Self::Router(refusal) => refusal.fmt(f),
        }
    }
}

impl Error for TurnRefusal {}
