// SPDX-License-Identifier: Apache-2.0
//! A router, path headers, authenticators and paths of SCION, over a proved library.
//!
//! A step of a router takes a packet in place. A packet is 8 bytes of destination, 8 of source, a
//! path header and a payload; [`Router::whole_packet_step`] takes packets with all their headers.
//!
//! ```
//! use scion::{Arrival, Interface, Kind, Outcome, Refusal, Router};
//!
//! let parent = Interface { number: 2, kind: Kind::Parent, router: 0, up: true };
//! let router = Router {
//!     ia: 0x0001_ff00_0000_0111,
//!     router: 0,
//!     key: b"k".to_vec(),
//!     previous: Vec::new(),
//!     interfaces: vec![parent],
//! };
//! let mut packet = *b"\x00\x01\xff\x00\x00\x00\x01\x10\x00\x01\xff\x00\x00\x00\x01\x11\
//!     \x00\x00\x20\x00\x00\x00\xb3\x96\x00\x00\x00\x64\x00\x3f\x00\x02\x00\x00\x11\x0e\x4c\x1d\
//!     \x3d\xad\x00\x3f\x00\x00\x00\x01\xa1\xa2\xa3\xa4\xa5\xa6";
//! let late = router.step(21_701, Arrival::FromHost, &mut packet);
//! assert_eq!(late, Err(Refusal::Expired));
//! let sent = router.step(100, Arrival::FromHost, &mut packet);
//! assert_eq!(sent, Ok(Outcome::ToLink(2)));
//! ```
//!
//! The library is proved; this crate is not. Its calls are safe since a slice keeps each duty of a
//! caller: it is not null, has as many initialized items as its length says, and no other borrower
//! if it may be written. `bindings/README.md` says what is proved, and what nobody promises.

pub mod raw;
mod refusal;
mod whole;

pub use refusal::{HeaderFault, Refusal};
pub use whole::{whole_packet_reply, Host, PacketFault, PacketInfo, TurnRefusal, WholePacket};

use std::marker::PhantomData;

/// The version of these calls.
pub const VERSION: &str = env!("CARGO_PKG_VERSION");

/// The kind of a link: what the AS at its far end is.
#[repr(u8)]
#[derive(Clone, Copy, Debug, PartialEq, Eq, Hash)]
pub enum Kind {
    /// Another core AS.
    Core = raw::SCION_CORE,
    /// A parent.
    Parent = raw::SCION_PARENT,
    /// A child.
    Child = raw::SCION_CHILD,
}

/// How a packet came to a router.
#[derive(Clone, Copy, Debug, PartialEq, Eq, Hash)]
pub enum Arrival {
    /// From a host of the AS.
    FromHost,
    /// From another router of the AS.
    Inside,
    /// Over the link at this interface.
    OverLink(u16),
}

impl Arrival {
    /// How it came, and by which interface.
    fn numbers(self) -> (u8, u16) {
        match self {
            Self::FromHost => (raw::SCION_FROM_HOST, 0),
            Self::Inside => (raw::SCION_INSIDE, 0),
            Self::OverLink(interface) => (raw::SCION_OVER_LINK, interface),
        }
    }
}

/// Where a packet goes.
#[derive(Clone, Copy, Debug, PartialEq, Eq, Hash)]
pub enum Outcome {
    /// Over the link at this interface.
    ToLink(u16),
    /// To the router of this number in the same AS.
    ToRouter(u8),
    /// To a host of this AS.
    Deliver,
}

impl Outcome {
    /// The outcome of a step that was answered so, or its refusal.
    fn of(answer: raw::Answer) -> Result<Self, Refusal> {
        match answer.code {
            raw::SCION_TO_LINK => Ok(Self::ToLink(answer.number)),
            raw::SCION_TO_ROUTER => Ok(Self::ToRouter(answer.number as u8)),
            raw::SCION_DELIVER => Ok(Self::Deliver),
            _ => Err(Refusal::of(answer)),
        }
    }
}

/// An interface of an AS.
#[derive(Clone, Copy, Debug, PartialEq, Eq, Hash)]
pub struct Interface {
    /// Its number, not 0.
    pub number: u16,
    /// What the AS at the far end is.
    pub kind: Kind,
    /// The number of the router that owns it.
    pub router: u8,
    /// Whether the link is up.
    pub up: bool,
}

/// A router, with the interfaces of its whole AS.
#[derive(Clone, Debug)]
pub struct Router {
    /// The address of its AS: 16 bits of ISD, then 48 of AS number.
    pub ia: u64,
    /// Its number in the AS.
    pub router: u8,
    /// The key in use, of 1 to 64 bytes.
    pub key: Vec<u8>,
    /// The key before it; no bytes if there is none.
    pub previous: Vec<u8>,
    /// The interfaces of the AS, at most 256.
    pub interfaces: Vec<Interface>,
}

/// A packet of [`Router::step_all`]. Its bytes are borrowed while it lives.
#[derive(Debug)]
#[repr(transparent)]
pub struct Packet<'a>(raw::Packet<'a>);

impl<'a> Packet<'a> {
    /// The packet of these bytes, which came in this way.
    pub fn new(bytes: &'a mut [u8], arrival: Arrival) -> Self {
        let (arrival, interface) = arrival.numbers();
        Self(raw::Packet {
            bytes: bytes.as_mut_ptr(),
            len: bytes.len(),
            interface,
            answer: raw::Answer::default(),
            arrival,
            of: PhantomData,
        })
    }
}

impl Router {
    /// The interfaces as C has them.
    fn table(&self) -> Vec<raw::Interface> {
        let row = |it: &Interface| raw::Interface {
            number: it.number,
            kind: it.kind as u8,
            router: it.router,
            up: it.up.into(),
        };
        self.interfaces.iter().map(row).collect()
    }

    /// The router as C has it, whose interfaces are these.
    fn parts(&self, table: &[raw::Interface]) -> raw::Router {
        raw::Router {
            ia: self.ia,
            key: self.key.as_ptr(),
            key_len: self.key.len(),
            previous: self.previous.as_ptr(),
            previous_len: self.previous.len(),
            interfaces: table.as_ptr(),
            interfaces_len: table.len(),
            router: self.router,
        }
    }

    /// One step on a packet, in place, at the second `now`.
    ///
    /// # Errors
    /// The first reason why the router, the way in or the packet is refused; then no byte of the
    /// packet has changed. Else only bytes of its header may have, also where it is delivered.
    pub fn step(&self, now: u32, arrival: Arrival, packet: &mut [u8]) -> Result<Outcome, Refusal> {
        let table = self.table();
        let parts = self.parts(&table);
        let (arrival, interface) = arrival.numbers();
        let (bytes, len) = (packet.as_mut_ptr(), packet.len());
        // SAFETY: the slices of the parts and the packet live, and only the packet is written.
        Outcome::of(unsafe { raw::scion_step(&parts, now, arrival, interface, bytes, len) })
    }

    /// One step on each packet; the keys are hashed once for all of them.
    ///
    /// # Errors
    /// There is no such router; then no packet has changed.
    pub fn step_all(
        &self,
        now: u32,
        packets: &mut [Packet<'_>],
    ) -> Result<Vec<Result<Outcome, Refusal>>, Refusal> {
        let table = self.table();
        let parts = self.parts(&table);
        let (records, len) = (packets.as_mut_ptr().cast(), packets.len());
        // SAFETY: a `Packet` has the layout of its record, and borrows bytes that nobody else has.
        let given = unsafe { raw::scion_step_all(&parts, now, records, len) };
        if given.code != raw::SCION_DONE {
            return Err(Refusal::of(given));
        }
        Ok(packets.iter().map(|it| Outcome::of(it.0.answer)).collect())
    }
}

/// The length of the path header at the front of these bytes.
///
/// # Errors
/// Why there is none.
pub fn header_len(bytes: &[u8]) -> Result<usize, HeaderFault> {
    // SAFETY: the slice lives, and is only read.
    HeaderFault::len_of(unsafe { raw::scion_header_check(bytes.as_ptr(), bytes.len()) })
}

/// Replaces the path header at the front of these bytes by that of the way back, and returns its
/// length.
///
/// # Errors
/// Why there is none; then no byte has changed.
pub fn header_reverse(bytes: &mut [u8]) -> Result<usize, HeaderFault> {
    // SAFETY: nobody else borrows the slice.
    HeaderFault::len_of(unsafe { raw::scion_header_reverse(bytes.as_mut_ptr(), bytes.len()) })
}

/// The authenticator of a hop under a key.
///
/// # Errors
/// [`Refusal::BadField`] if the key is empty or has more than 64 bytes.
pub fn hop_mac(
    key: &[u8],
    beta: u16,
    timestamp: u32,
    exp_time: u8,
    cons_ingress: u16,
    cons_egress: u16,
) -> Result<[u8; 6], Refusal> {
    let mut mac = [0; 6];
    let (bytes, len) = (key.as_ptr(), key.len());
    let (ingress, egress) = (cons_ingress, cons_egress);
    // SAFETY: the key lives, and the authenticator lies apart from it.
    let given = unsafe {
        raw::scion_hop_mac(
            bytes, len, beta, timestamp, exp_time, ingress, egress, &mut mac,
        )
    };
    if given.code == raw::SCION_DONE {
        Ok(mac)
    } else {
        Err(Refusal::of(given))
    }
}

#[cfg(feature = "paths")]
mod paths;

#[cfg(feature = "paths")]
pub use paths::{paths, verify, OutOfMemory, MAX_REQUEST_LEN};
