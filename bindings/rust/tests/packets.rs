// SPDX-License-Identifier: Apache-2.0
//! Whole packets: the turns of `cases/packets/turns.tsv`, and one packet by hand, written, read and
//! answered. What is expected stands in the cases, or is said by the layout of packets.

use scion::{whole_packet_reply, Host, PacketFault, PacketInfo, TurnRefusal, WholePacket};
use scion::{Arrival, HeaderFault, Interface, Kind, Outcome, Router};
use std::net::{IpAddr, Ipv4Addr, Ipv6Addr};

const CASES: &str = include_str!("../../../cases/packets/turns.tsv");

const FRONT: &str = "0b8abcde11150003010312340001ff00000001100001ff0000000111";
const FRONT_BACK: &str = "0b8abcde11150003013012340001ff00000001110001ff0000000110";
const PATH: &str = "000020000000b39600000064003f00020000110e4c1d3dad003f00000001a1a2a3a4a5a6";
const WAY_BACK: &str = "010020000100b39600000064003f00000001a1a2a3a4a5a6003f00020000110e4c1d3dad";
const IPV4: &str = "0a000001";
const IPV6: &str = "20010db8000000000000000000000001";
const PAYLOAD: &str = "686921";

/// The bytes of a text in hexadecimal; `-` stands for none.
fn unhex(text: &str) -> Vec<u8> {
    let text = text.trim_start_matches('-');
    let byte = |at| u8::from_str_radix(&text[at..at + 2], 16).unwrap();
    (0..text.len()).step_by(2).map(byte).collect()
}

fn number<T: std::str::FromStr>(text: &str) -> T
where
    T::Err: std::fmt::Debug,
{
    text.parse().unwrap()
}

fn interface(row: &str) -> Interface {
    let parts: Vec<&str> = row.split(',').collect();
    let kinds = [Kind::Core, Kind::Parent, Kind::Child];
    Interface {
        number: number(parts[0]),
        kind: kinds[number::<usize>(parts[1])],
        router: number(parts[2]),
        up: parts[3] == "1",
    }
}

/// The parts of a text between blanks; `-` stands for none.
fn list(text: &str) -> impl Iterator<Item = &str> {
    text.split(' ').filter(|it| *it != "-")
}

/// Code and number of a turn, as the library has them.
fn numbers(given: Result<Outcome, TurnRefusal>) -> (u16, u16) {
    match given {
        Ok(Outcome::ToLink(interface)) => (0, interface),
        Ok(Outcome::ToRouter(router)) => (1, router.into()),
        Ok(Outcome::Deliver) => (2, 0),
        Err(TurnRefusal::Packet(PacketFault::BadHeader(fault))) => (90, fault.code()),
        Err(refusal) => (refusal.code(), 0),
    }
}

#[test]
fn are_the_turns_of_the_cases_answered() {
    for line in CASES.lines() {
        let fields: Vec<&str> = line.split('\t').collect();
        let router = Router {
            ia: u64::from_str_radix(fields[1], 16).unwrap(),
            router: number(fields[2]),
            key: unhex(fields[6]),
            previous: unhex(fields[7]),
            interfaces: list(fields[8]).map(interface).collect(),
        };
        let arrival = match fields[4] {
            "0" => Arrival::FromHost,
            "1" => Arrival::Inside,
            _ => Arrival::OverLink(number(fields[5])),
        };
        let mut packet = unhex(fields[9]);
        let mut wanted = packet.clone();
        for change in list(fields[12]) {
            let (place, byte) = change.split_once('=').unwrap();
            wanted[number::<usize>(place)] = u8::from_str_radix(byte, 16).unwrap();
        }
        let given = router.whole_packet_step(number(fields[3]), arrival, &mut packet);
        let answer = (number(fields[10]), number(fields[11]));
        assert_eq!((numbers(given), packet), (answer, wanted), "{}", fields[0]);
    }
    assert_eq!(CASES.lines().count(), 850);
}

fn by_hand() -> PacketInfo {
    PacketInfo {
        destination: 0x0001_ff00_0000_0110,
        source: 0x0001_ff00_0000_0111,
        destination_host: Host::from(IpAddr::V4(Ipv4Addr::new(10, 0, 0, 1))),
        source_host: Host::from(IpAddr::V6(Ipv6Addr::new(0x2001, 0xdb8, 0, 0, 0, 0, 0, 1))),
        next_header: 17,
        traffic_class: 0xb8,
        flow_id: 0xabcde,
        reserved: 0x1234,
    }
}

#[test]
fn is_a_packet_written_and_read() {
    let (path, payload) = (unhex(PATH), unhex(PAYLOAD));
    let packet = WholePacket {
        info: by_hand(),
        path: &path,
        payload: &payload,
    };
    let bytes = packet.to_bytes().unwrap();
    assert_eq!(bytes, unhex(&[FRONT, IPV4, IPV6, PATH, PAYLOAD].concat()));
    assert_eq!(WholePacket::read(&bytes), Ok(packet));
    let cut = WholePacket::read(&bytes[..bytes.len() - 1]);
    assert_eq!(cut, Err(PacketFault::BadPayloadLength));
}

#[test]
fn is_what_does_not_fit_refused() {
    let (path, large) = (unhex(PATH), vec![0; 65_536]);
    let packet = WholePacket {
        info: by_hand(),
        path: &path,
        payload: &large,
    };
    let flow = PacketInfo {
        flow_id: 1 << 20,
        ..by_hand()
    };
    let short = WholePacket {
        path: &path[..35],
        ..packet
    };
    let rows = [
        (
            WholePacket {
                info: flow,
                ..short
            },
            PacketFault::BadField,
        ),
        (short, PacketFault::BadHeader(HeaderFault::Short)),
        (packet, PacketFault::PayloadTooLarge),
    ];
    for (packet, fault) in rows {
        assert_eq!(packet.to_bytes(), Err(fault));
    }
    let largest = WholePacket {
        payload: &large[1..],
        ..packet
    };
    assert_eq!(largest.to_bytes().map(|it| it.len()), Ok(84 + 65_535));
    assert_eq!(Host::new(4, &[0; 4]), None);
    assert_eq!(Host::new(0, &[0; 20]), None);
    assert_eq!(Host::service(2).bytes(), [0, 2, 0, 0]);
    assert_eq!(Host::service(2).kind(), 1);
}

#[test]
fn does_a_reply_go_the_way_back() {
    let sent = unhex(&[FRONT, IPV4, IPV6, PATH, PAYLOAD].concat());
    let mut packet = sent.clone();
    assert_eq!(whole_packet_reply(&mut packet), Ok(()));
    let back = [FRONT_BACK, IPV6, IPV4, WAY_BACK, PAYLOAD].concat();
    assert_eq!(packet, unhex(&back));
    assert_eq!(whole_packet_reply(&mut packet), Ok(()));
    assert_eq!(packet, sent);
    let fault = whole_packet_reply(&mut packet[..86]);
    assert_eq!(fault, Err(PacketFault::BadPayloadLength));
    assert_eq!(packet, sent);
}
