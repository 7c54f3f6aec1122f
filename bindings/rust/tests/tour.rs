// SPDX-License-Identifier: Apache-2.0
//! The turns of docs/programs.md by hand, and packets that were cut or changed on their way. What
//! is expected is said by the rules of a router, never by what the library answered.

use scion::{header_len, header_reverse, hop_mac};
use scion::{Arrival, HeaderFault, Interface, Kind, Outcome, Packet, Refusal, Router};

const RIGHT: &str = "110e4c1d3dad";
const OTHER: &str = "b1b2b3b4b5b6";
const AT_111: u64 = 0x0001_ff00_0000_0111;
const AT_110: u64 = 0x0001_ff00_0000_0110;
const PARENT: Interface = Interface {
    number: 2,
    kind: Kind::Parent,
    router: 0,
    up: true,
};

fn unhex(text: &str) -> Vec<u8> {
    let byte = |at| u8::from_str_radix(&text[at..at + 2], 16).unwrap();
    (0..text.len()).step_by(2).map(byte).collect()
}

/// The packet of docs/programs.md, whose meta field begins so, with this authenticator.
fn packet(first: &str, mac: &str) -> Vec<u8> {
    let ends = "0001ff00000001100001ff0000000111";
    let hops = format!("003f00020000{mac}003f00000001a1a2a3a4a5a6");
    unhex(&format!("{ends}{first}0020000000b39600000064{hops}"))
}

fn router(ia: u64, key: &[u8], previous: &[u8], interfaces: Vec<Interface>) -> Router {
    Router {
        ia,
        router: 0,
        key: key.to_vec(),
        previous: previous.to_vec(),
        interfaces,
    }
}

fn at_111() -> Router {
    router(AT_111, b"k", b"", vec![PARENT])
}

/// A step at 1-ff00:0:111 of a packet from a host, and the packet after it.
fn step(at: &Router, now: u32, sent: &[u8]) -> (Result<Outcome, Refusal>, Vec<u8>) {
    let mut packet = sent.to_vec();
    (at.step(now, Arrival::FromHost, &mut packet), packet)
}

#[test]
fn are_the_turns_of_the_readme_answered() {
    let (sent, gone, other) = (
        packet("00", RIGHT),
        packet("01", RIGHT),
        packet("00", OTHER),
    );
    let down = router(
        AT_111,
        b"k",
        b"",
        vec![Interface {
            up: false,
            ..PARENT
        }],
    );
    let rotated = router(AT_111, b"l", b"k", vec![PARENT]);
    assert_eq!(
        step(&at_111(), 100, &sent),
        (Ok(Outcome::ToLink(2)), gone.clone())
    );
    assert_eq!(
        step(&at_111(), 21_701, &sent),
        (Err(Refusal::Expired), sent.clone())
    );
    assert_eq!(
        step(&down, 100, &sent),
        (Err(Refusal::LinkDown), sent.clone())
    );
    assert_eq!(step(&at_111(), 100, &other), (Err(Refusal::BadMac), other));
    assert_eq!(step(&rotated, 100, &sent), (Ok(Outcome::ToLink(2)), gone));
}

#[test]
fn are_parts_that_are_no_router_refused() {
    let sent = packet("00", RIGHT);
    let parts = |interfaces| router(AT_111, b"k", b"", interfaces);
    let numbered = |number| Interface { number, ..PARENT };
    let many = (1..=257).map(numbered).collect();
    let rows = [
        (router(AT_111, b"", b"", vec![PARENT]), Refusal::BadField),
        (
            router(AT_111, &[1; 65], b"", vec![PARENT]),
            Refusal::BadField,
        ),
        (router(0, b"k", b"", vec![PARENT]), Refusal::BadField),
        (parts(vec![numbered(0)]), Refusal::BadField),
        (parts(vec![PARENT, PARENT]), Refusal::DuplicateIf),
        (parts(many), Refusal::BadCall),
    ];
    for (at, refusal) in rows {
        assert_eq!(step(&at, 100, &sent), (Err(refusal), sent.clone()));
        let mut bytes = sent.clone();
        let mut packets = [Packet::new(&mut bytes, Arrival::FromHost)];
        assert_eq!(at.step_all(100, &mut packets), Err(refusal));
        assert_eq!(bytes, sent);
    }
}

#[test]
fn is_a_packet_delivered_and_handed_over() {
    let inside = "010020000000b39600000064003f00020000b1b2b3b4b5b6003f000000017cc464f73e18";
    let mut last = unhex(&format!("0001ff00000001100001ff0000000111{inside}"));
    let before = last.clone();
    let at_110 = router(AT_110, b"k", b"", Vec::new());
    assert_eq!(
        at_110.step(100, Arrival::Inside, &mut last),
        Ok(Outcome::Deliver)
    );
    assert_eq!(last, before);
    let other = router(
        AT_111,
        b"k",
        b"",
        vec![Interface {
            router: 7,
            ..PARENT
        }],
    );
    let sent = packet("00", RIGHT);
    assert_eq!(step(&other, 100, &sent), (Ok(Outcome::ToRouter(7)), sent));
}

#[test]
fn does_a_delivery_over_a_link_change_the_accumulator() {
    let row = |accumulator: &str| {
        let ends = "0001ff00000001100001ff0000000112";
        let hops = "003f00010000ad8a52e6ab61003f0001000239b948f8a321003f00000001aef522c41890";
        unhex(&format!("{ends}020030000000{accumulator}000003e8{hops}"))
    };
    let child = Interface {
        number: 1,
        kind: Kind::Child,
        router: 0,
        up: true,
    };
    let at_110 = router(AT_110, b"a0", b"", vec![child]);
    let mut packet = row("bcc1");
    assert_eq!(
        at_110.step(1000, Arrival::OverLink(1), &mut packet),
        Ok(Outcome::Deliver)
    );
    assert_eq!(packet, row("1234"));
    let mut elsewhere = row("bcc1");
    let refused = at_110.step(1000, Arrival::OverLink(2), &mut elsewhere);
    assert_eq!(refused, Err(Refusal::WrongIngress));
}

#[test]
fn are_packets_that_were_cut_or_changed_refused() {
    let sent = packet("00", RIGHT);
    let short = Err(Refusal::BadHeader(HeaderFault::Short));
    for len in 0..sent.len() {
        assert_eq!(
            step(&at_111(), 100, &sent[..len]),
            (short, sent[..len].to_vec())
        );
    }
    for byte in 34..40 {
        let mut changed = sent.clone();
        changed[byte] ^= 0x80;
        assert_eq!(step(&at_111(), 100, &changed).0, Err(Refusal::BadMac));
    }
}

#[test]
fn is_each_packet_of_a_call_answered() {
    let (mut first, mut second, mut third) = (
        packet("00", RIGHT),
        packet("00", OTHER),
        packet("00", RIGHT),
    );
    let mut packets = [
        Packet::new(&mut first[..20], Arrival::FromHost),
        Packet::new(&mut second, Arrival::FromHost),
        Packet::new(&mut third, Arrival::FromHost),
    ];
    let short = Err(Refusal::BadHeader(HeaderFault::Short));
    let answers = vec![short, Err(Refusal::BadMac), Ok(Outcome::ToLink(2))];
    assert_eq!(at_111().step_all(100, &mut packets), Ok(answers));
    assert_eq!(at_111().step_all(100, &mut []), Ok(Vec::new()));
    assert_eq!((first, second), (packet("00", RIGHT), packet("00", OTHER)));
    assert_eq!(third, packet("01", RIGHT));
}

#[test]
fn is_a_header_measured_and_reversed() {
    let mut header = packet("00", RIGHT)[16..].to_vec();
    let back = format!("003f00000001a1a2a3a4a5a6003f00020000{RIGHT}");
    assert_eq!(header_len(&header), Ok(36));
    assert_eq!(header_len(&header[..35]), Err(HeaderFault::Short));
    assert_eq!(header_reverse(&mut header[..35]), Err(HeaderFault::Short));
    assert_eq!(header_reverse(&mut header), Ok(36));
    assert_eq!(header, unhex(&format!("010020000100b39600000064{back}")));
}

#[test]
fn is_an_authenticator_written() {
    let mac = hop_mac(b"k", 0xb396, 100, 63, 2, 0);
    assert_eq!(mac, Ok(unhex(RIGHT).try_into().unwrap()));
    assert_eq!(hop_mac(b"", 0xb396, 100, 63, 2, 0), Err(Refusal::BadField));
}

#[test]
fn does_a_refusal_say_its_number() {
    let refusal = Refusal::BadHeader(HeaderFault::Short);
    assert_eq!(refusal.to_string(), "refused: 90 BadHeader(Short)");
    let source = std::error::Error::source(&refusal).map(ToString::to_string);
    assert_eq!(source.as_deref(), Some("no path header: 20 Short"));
}

#[cfg(feature = "paths")]
#[test]
fn are_requests_answered() {
    let refused = r#"{"code":150,"name":"BadRequest"}"#;
    assert_eq!(scion::paths(""), Ok(refused.to_string()));
    assert_eq!(scion::verify("[]"), Ok(refused.to_string()));
    let none = r#"{"src":"1-1","dst":"1-2","limit":4,"now":1000,"segments":[]}"#;
    assert_eq!(scion::paths(none), Ok(r#"{"paths":[]}"#.to_string()));
    let longest = none.to_string() + &" ".repeat(scion::MAX_REQUEST_LEN - none.len());
    assert_eq!(scion::paths(&longest), Ok(r#"{"paths":[]}"#.to_string()));
    assert_eq!(scion::paths(&format!("{longest} ")), Ok(refused.to_string()));
}
