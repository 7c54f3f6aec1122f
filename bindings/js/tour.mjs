// SPDX-License-Identifier: Apache-2.0
// The turns of docs/programs.md by hand, and packets that were cut or changed on their way. What is
// expected is said by the rules of a router, never by what the library answered.
//
//   node --experimental-wasm-memory64 tour.mjs scion.wasm
import { readFile } from "node:fs/promises";
import { isDeepStrictEqual } from "node:util";
import { Arrival, Code, Kind, Refused, load } from "./scion.mjs";

const unhex = (text) => Uint8Array.from(text.match(/../g) ?? [], (two) => parseInt(two, 16));

const ADDRESSES = "0001ff00000001100001ff0000000111";
const [OWN_HOP, NEXT_HOP] = ["003f00020000", "003f00000001"];
const [RIGHT, OTHER] = ["110e4c1d3dad", "b1b2b3b4b5b6"];
const [AT_111, AT_110] = [0x0001ff0000000111n, 0x0001ff0000000110n];
const K = unhex("6b");
const PARENT = { number: 2, kind: Kind.PARENT };
const PARTS = { ia: AT_111, key: K, interfaces: [PARENT] };

/** The packet of docs/programs.md, whose meta field begins so, with this authenticator. */
function packet(first, mac) {
  const hops = `${OWN_HOP}${mac}${NEXT_HOP}a1a2a3a4a5a6`;
  return unhex(`${ADDRESSES}${first}0020000000b39600000064${hops}`);
}

const SENT = packet("00", RIGHT);
const GONE = packet("01", RIGHT);

const library = await load(await readFile(process.argv[2]));
let [count, wrong] = [0, 0];

function expect(what, given, wanted) {
  count += 1;
  if (isDeepStrictEqual(given, wanted)) return;
  wrong += 1;
  console.log(`${what}:`, given, "and not", wanted);
}

/** The call fails so, with this code if it is refused. */
function fails(what, type, call, code) {
  try {
    expect(what, call(), type.name);
  } catch (fault) {
    expect(what, [fault.constructor, fault.code], [type, code]);
  }
}

function turns() {
  const other = packet("00", OTHER);
  const down = { ...PARTS, interfaces: [{ ...PARENT, up: false }] };
  const rotated = { ...PARTS, key: unhex("6c"), previous: K };
  const far = { ...PARTS, interfaces: [{ ...PARENT, router: 7 }] };
  const odd = { ...PARTS, interfaces: [{ ...PARENT, kind: 3 }] };
  const rows = [
    ["over the link", PARTS, SENT, 100, Code.TO_LINK, 2, GONE],
    ["expired", PARTS, SENT, 21701, Code.EXPIRED, 0, SENT],
    ["link down", down, SENT, 100, Code.LINK_DOWN, 0, SENT],
    ["authenticator", PARTS, other, 100, Code.BAD_MAC, 0, other],
    ["key before", rotated, SENT, 100, Code.TO_LINK, 2, GONE],
    ["handed over", far, SENT, 100, Code.TO_ROUTER, 7, SENT],
    ["no key", { ...PARTS, key: unhex("") }, SENT, 100, Code.BAD_FIELD, 0, SENT],
    ["no such kind", odd, SENT, 100, Code.BAD_CALL, 0, SENT],
    ["no interfaces", { ...PARTS, interfaces: [] }, SENT, 100, Code.UNKNOWN_EGRESS, 0, SENT],
  ];
  for (const [what, router, bytes, now, code, number, after] of rows) {
    const wanted = { code, number, bytes: after };
    expect(what, library.step(router, now, { bytes }), wanted);
    if (code === Code.BAD_FIELD || code === Code.BAD_CALL) {
      fails(`${what}, all`, Refused, () => library.stepAll(router, now, [{ bytes }]), code);
    } else {
      expect(`${what}, all`, library.stepAll(router, now, [{ bytes }]), [wanted]);
    }
  }
}

function deliveries() {
  const row = (accumulator) =>
    unhex(
      "0001ff00000001100001ff0000000112" + `020030000000${accumulator}000003e8` +
        "003f00010000ad8a52e6ab61003f0001000239b948f8a321003f00000001aef522c41890",
    );
  const child = { number: 1, kind: Kind.CHILD };
  const at110 = { ia: AT_110, key: unhex("6130"), interfaces: [child] };
  const came = { bytes: row("bcc1"), arrival: Arrival.OVER_LINK, interface: 1 };
  const wanted = { code: Code.DELIVER, number: 0, bytes: row("1234") };
  expect("delivered", library.step(at110, 1000, came), wanted);
  const elsewhere = { code: Code.WRONG_INGRESS, number: 0, bytes: row("bcc1") };
  expect("elsewhere", library.step(at110, 1000, { ...came, interface: 2 }), elsewhere);
}

function hostile() {
  const packets = [];
  const wanted = [];
  for (let length = 0; length < SENT.length; length++) {
    packets.push({ bytes: SENT.slice(0, length) });
    wanted.push({ code: Code.BAD_HEADER, number: Code.SHORT, bytes: SENT.slice(0, length) });
  }
  for (let byte = 34; byte < 40; byte++) {
    for (let flip = 1; flip < 256; flip++) {
      const bytes = SENT.slice();
      bytes[byte] ^= flip;
      packets.push({ bytes });
      wanted.push({ code: Code.BAD_MAC, number: 0, bytes: bytes.slice() });
    }
  }
  expect("cut or changed", library.stepAll(PARTS, 100, packets), wanted);
  const each = packets.map((it) => library.step(PARTS, 100, it));
  expect("cut or changed, one by one", each, wanted);
  expect("none", library.stepAll(PARTS, 100, []), []);
}

function headers() {
  const header = SENT.slice(16);
  const back = unhex(`010020000100b39600000064${NEXT_HOP}a1a2a3a4a5a6${OWN_HOP}${RIGHT}`);
  expect("header", library.headerLength(header), 36);
  expect("way back", library.headerReverse(header), back);
  expect("authenticator", library.hopMac(K, 0xb396, 100, 63, 2, 0), unhex(RIGHT));
  const short = header.slice(0, 35);
  fails("no header", Refused, () => library.headerLength(short), Code.SHORT);
  fails("no way back", Refused, () => library.headerReverse(short), Code.SHORT);
  const none = () => library.hopMac(unhex(""), 0xb396, 100, 63, 2, 0);
  fails("no key", Refused, none, Code.BAD_FIELD);
}

/** Arguments that do not fit, and a call behind each, which finds the memory given back. */
function unfit() {
  const steps = [
    ["milliseconds", RangeError, PARTS, 2 ** 32 + 100, { bytes: SENT }],
    ["half a second", RangeError, PARTS, 100.5, { bytes: SENT }],
    ["arrival", RangeError, PARTS, 100, { bytes: SENT, arrival: 256 }],
    ["interface", RangeError, PARTS, 100, { bytes: SENT, interface: 65538 }],
    ["address", RangeError, { ...PARTS, ia: AT_111 + (1n << 64n) }, 100, { bytes: SENT }],
    ["address of a number", RangeError, { ...PARTS, ia: 1 }, 100, { bytes: SENT }],
    ["router", RangeError, { ...PARTS, router: 256 }, 100, { bytes: SENT }],
    ["key", TypeError, { ...PARTS, key: 5 }, 100, { bytes: SENT }],
    ["wide items", TypeError, PARTS, 100, { bytes: new Uint16Array(26) }],
    ["too long", RangeError, PARTS, 100, { bytes: new Uint8Array(library.room + 1) }],
  ];
  for (const change of [{ number: 65538 }, { kind: 257 }, { router: 256 }, { up: 256 }]) {
    const router = { ...PARTS, interfaces: [{ ...PARENT, ...change }] };
    steps.push([`interface ${JSON.stringify(change)}`, RangeError, router, 100, { bytes: SENT }]);
  }
  const right = [0xb396, 100, 63, 2, 0];
  const wanted = { code: Code.TO_LINK, number: 2, bytes: GONE };
  for (const [what, type, router, now, came] of steps) {
    fails(what, type, () => library.step(router, now, came));
    fails(`${what}, all`, type, () => library.stepAll(router, now, [came]));
    expect(`behind ${what}`, library.step(PARTS, 100, { bytes: SENT }), wanted);
  }
  [16, 32, 8, 16, 16].forEach((bits, place) => {
    const values = right.map((it, at) => (at === place ? it + 2 ** bits : it));
    fails(`authenticator of ${values}`, RangeError, () => library.hopMac(K, ...values));
  });
}

/** Arguments that call the library while they are read, which changes no answer. */
function entered() {
  const other = () => library.hopMac(unhex("6c".repeat(64)), 1, 2, 3, 4, 5);
  const calling = (values) => {
    const found = {};
    for (const [name, value] of Object.entries(values)) {
      Object.defineProperty(found, name, { get: () => (other(), value), enumerable: true });
    }
    return found;
  };
  const listed = function* (values) {
    for (const value of values) {
      other();
      yield value;
    }
    other();
  };
  const came = { bytes: SENT, arrival: Arrival.FROM_HOST, interface: 0 };
  const members = { ...PARTS, previous: unhex("6b"), router: 0 };
  const wanted = { code: Code.TO_LINK, number: 2, bytes: GONE };
  const up = { valueOf: () => (other(), 1) };
  const interfaces = () => listed([calling({ ...PARENT, router: 0, up })]);
  const each = (what, router, packet) => {
    expect(`${what} that calls`, library.step(router(), 100, packet), wanted);
    const all = library.stepAll(router(), 100, listed([packet, packet]));
    expect(`${what} that calls, all`, all, [wanted, wanted]);
  };
  each("a packet", () => members, calling(came));
  each("a router", () => calling(members), came);
  each("a list of interfaces", () => ({ ...members, interfaces: interfaces() }), came);
  each("each member", () => calling({ ...members, interfaces: interfaces() }), calling(came));
}

turns();
deliveries();
hostile();
headers();
unfit();
entered();
console.log(`${count} answers, ${wrong} wrong`);
process.exit(wrong ? 1 : 0);
