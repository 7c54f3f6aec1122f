// SPDX-License-Identifier: Apache-2.0
//! The library as C has it: the constants, records and calls of `include/scion.h`, which says what
//! each means and what a caller has to keep.

use std::marker::PhantomData;

pub const SCION_DONE: u16 = 0;
pub const SCION_TO_LINK: u16 = 0;
pub const SCION_TO_ROUTER: u16 = 1;
pub const SCION_DELIVER: u16 = 2;

pub const SCION_BAD_CALL: u16 = 9;
pub const SCION_BAD_FIELD: u16 = 11;
pub const SCION_DUPLICATE_IF: u16 = 13;
pub const SCION_SHORT: u16 = 20;
pub const SCION_RESERVED: u16 = 21;
pub const SCION_PEER_FLAG: u16 = 22;
pub const SCION_ALERT_FLAG: u16 = 23;
pub const SCION_SEG_LENS: u16 = 24;
pub const SCION_TOO_MANY_HOPS: u16 = 25;
pub const SCION_BAD_INDEX: u16 = 26;
pub const SCION_PACKET_ROOM_TOO_SMALL: u16 = 27;
pub const SCION_BAD_HEADER: u16 = 90;
pub const SCION_INDEX_MISMATCH: u16 = 91;
pub const SCION_WRONG_INGRESS: u16 = 92;
pub const SCION_EXPIRED: u16 = 93;
pub const SCION_BAD_MAC: u16 = 94;
pub const SCION_SOURCE_AS: u16 = 95;
pub const SCION_DESTINATION_AS: u16 = 96;
pub const SCION_SWITCH_INSIDE: u16 = 97;
pub const SCION_UNKNOWN_EGRESS: u16 = 98;
pub const SCION_LINK_KINDS: u16 = 99;
pub const SCION_LINK_DOWN: u16 = 100;
pub const SCION_SHORT_PACKET: u16 = 160;
pub const SCION_BAD_VERSION: u16 = 161;
pub const SCION_BAD_PATH_TYPE: u16 = 162;
pub const SCION_BAD_HEADER_LENGTH: u16 = 163;
pub const SCION_BAD_PAYLOAD_LENGTH: u16 = 164;
pub const SCION_PAYLOAD_TOO_LARGE: u16 = 165;

pub const SCION_CORE: u8 = 0;
pub const SCION_PARENT: u8 = 1;
pub const SCION_CHILD: u8 = 2;

pub const SCION_FROM_HOST: u8 = 0;
pub const SCION_INSIDE: u8 = 1;
pub const SCION_OVER_LINK: u8 = 2;

pub const SCION_WRITTEN: u16 = 0;
pub const SCION_ROOM_TOO_SMALL: u16 = 1;
pub const SCION_OUT_OF_MEMORY: u16 = 2;

/// What a call answers.
#[repr(C)]
#[derive(Clone, Copy, Debug, Default, PartialEq, Eq)]
pub struct Answer {
    /// The result, or the refusal.
    pub code: u16,
    /// An interface, a router, a length, or at 90 the header's refusal; else 0.
    pub number: u16,
}

/// An interface of an AS.
#[repr(C)]
#[derive(Clone, Copy, Debug)]
pub struct Interface {
    /// Not 0.
    pub number: u16,
    /// `SCION_CORE`, `SCION_PARENT` or `SCION_CHILD`.
    pub kind: u8,
    /// The number of the router that owns it.
    pub router: u8,
    /// 1, or 0 for a link that is down.
    pub up: u8,
}

/// A router, with the interfaces of its whole AS.
#[repr(C)]
#[derive(Clone, Copy, Debug)]
pub struct Router {
    /// The address of its AS.
    pub ia: u64,
    /// The key in use.
    pub key: *const u8,
    pub key_len: usize,
    /// The key before it.
    pub previous: *const u8,
    pub previous_len: usize,
    pub interfaces: *const Interface,
    pub interfaces_len: usize,
    /// Its number in the AS.
    pub router: u8,
}

/// A packet of [`scion_step_all`], which writes the answer.
#[repr(C)]
#[derive(Debug)]
pub struct Packet<'a> {
    pub bytes: *mut u8,
    pub len: usize,
    pub interface: u16,
    pub answer: Answer,
    pub arrival: u8,
    /// The bytes are borrowed.
    pub of: PhantomData<&'a mut [u8]>,
}

/// The address of a host.
#[repr(C)]
#[derive(Clone, Copy, Debug, Default)]
pub struct Host {
    /// Its type, 0 to 3.
    pub kind: u8,
    /// 4, 8, 12 or 16.
    pub len: u8,
    /// The first `len` of them.
    pub bytes: [u8; 16],
}

/// What a whole packet says besides its path and its payload.
#[repr(C)]
#[derive(Clone, Copy, Debug, Default)]
pub struct PacketInfo {
    pub destination: u64,
    pub source: u64,
    /// Below 2^20.
    pub flow_id: u32,
    pub reserved: u16,
    /// Where the path header begins; not looked at by a call that writes.
    pub path_start: u16,
    pub traffic_class: u8,
    pub next_header: u8,
    pub destination_host: Host,
    pub source_host: Host,
}

/// What happened to an answer that was to be written.
#[cfg(feature = "paths")]
#[repr(C)]
#[derive(Clone, Copy, Debug)]
pub struct Text {
    /// `SCION_WRITTEN`, `SCION_ROOM_TOO_SMALL` or `SCION_OUT_OF_MEMORY`.
    pub status: u16,
    pub len: usize,
}

unsafe extern "C" {
    /// One step of a router on a packet, in place.
    pub fn scion_step(
        router: *const Router,
        now: u32,
        arrival: u8,
        interface: u16,
        packet: *mut u8,
        len: usize,
    ) -> Answer;
    /// One step on each packet.
    pub fn scion_step_all(
        router: *const Router,
        now: u32,
        packets: *mut Packet<'_>,
        len: usize,
    ) -> Answer;
    /// One step of a router on a whole packet, in place.
    pub fn scion_whole_packet_step(
        router: *const Router,
        now: u32,
        arrival: u8,
        interface: u16,
        packet: *mut u8,
        len: usize,
    ) -> Answer;
    /// Writes what a whole packet says.
    pub fn scion_whole_packet_read(packet: *const u8, len: usize, info: *mut PacketInfo) -> Answer;
    /// Writes a whole packet to the front of a room.
    pub fn scion_whole_packet_write(
        info: *const PacketInfo,
        path: *const u8,
        path_len: usize,
        payload: *const u8,
        payload_len: usize,
        room: *mut u8,
        room_len: usize,
    ) -> Answer;
    /// Replaces a whole packet by the reply to it.
    pub fn scion_whole_packet_reply(packet: *mut u8, len: usize) -> Answer;
    /// Whether these bytes begin with a path header.
    pub fn scion_header_check(bytes: *const u8, len: usize) -> Answer;
    /// Replaces the path header at the front by that of the way back.
    pub fn scion_header_reverse(bytes: *mut u8, len: usize) -> Answer;
    /// Writes the authenticator of a hop.
    pub fn scion_hop_mac(
        key: *const u8,
        key_len: usize,
        beta: u16,
        timestamp: u32,
        exp_time: u8,
        cons_ingress: u16,
        cons_egress: u16,
        mac: *mut [u8; 6],
    ) -> Answer;
}

#[cfg(feature = "paths")]
unsafe extern "C" {
    /// Answers a request for paths.
    pub fn scion_paths(
        request: *const u8,
        request_len: usize,
        room: *mut u8,
        room_len: usize,
    ) -> Text;
    /// Answers whether a path may be sent.
    pub fn scion_verify(
        request: *const u8,
        request_len: usize,
        room: *mut u8,
        room_len: usize,
    ) -> Text;
}
