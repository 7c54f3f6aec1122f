// SPDX-License-Identifier: Apache-2.0
// Whole packets: the turns of cases/packets/turns.tsv, and one packet by hand, written, read and
// answered. What is expected stands in the cases, or is said by the layout of packets.
//
//   node --experimental-wasm-memory64 packets.mjs scion.wasm turns.tsv
import { readFile } from "node:fs/promises";
import { isDeepStrictEqual } from "node:util";
import { Code, Refused, load } from "./scion.mjs";

const unhex = (text) => Uint8Array.from(text.match(/[^-]./g) ?? [], (two) => parseInt(two, 16));

const FRONT = "0b8abcde11150003010312340001ff00000001100001ff0000000111";
const FRONT_BACK = "0b8abcde11150003013012340001ff00000001110001ff0000000110";
const PATH = "000020000000b39600000064003f00020000110e4c1d3dad003f00000001a1a2a3a4a5a6";
const WAY_BACK = "010020000100b39600000064003f00000001a1a2a3a4a5a6003f00020000110e4c1d3dad";
const [IPV4, IPV6] = ["0a000001", "20010db8000000000000000000000001"];
const PAYLOAD = "686921";
const SENT = unhex(FRONT + IPV4 + IPV6 + PATH + PAYLOAD);
const INFO = {
  destination: 0x0001ff0000000110n,
  source: 0x0001ff0000000111n,
  destinationHost: { kind: 0, bytes: unhex(IPV4) },
  sourceHost: { kind: 0, bytes: unhex(IPV6) },
  nextHeader: 17,
  trafficClass: 0xb8,
  flowId: 0xabcde,
  reserved: 0x1234,
};
const PACKET = { info: INFO, path: unhex(PATH), payload: unhex(PAYLOAD) };

const library = await load(await readFile(process.argv[2]));
const cases = (await readFile(process.argv[3], "utf8")).trimEnd().split("\n");
let [count, wrong] = [0, 0];

function expect(what, given, wanted) {
  count += 1;
  if (isDeepStrictEqual(given, wanted)) return;
  wrong += 1;
  console.log(`${what}:`, given, "and not", wanted);
}

/** The call is refused with this code, and that of the path header. */
function refuses(what, call, code, header = 0) {
  try {
    expect(what, call(), "a refusal");
  } catch (fault) {
    expect(what, [fault.constructor, fault.code, fault.header], [Refused, code, header]);
  }
}

/** The parts of a text between blanks; `-` stands for none. */
const list = (text) => text.split(" ").filter((it) => it !== "-");

function turn(line) {
  const [name, ia, router, now, arrival, from, key, previous, table, bytes, ...answer] =
    line.split("\t");
  const interfaces = list(table).map((row) => {
    const [number, kind, owner, up] = row.split(",").map(Number);
    return { number, kind, router: owner, up: up === 1 };
  });
  const keys = { key: unhex(key), previous: unhex(previous) };
  const at = { ia: BigInt(`0x${ia}`), router: Number(router), ...keys, interfaces };
  const packet = { bytes: unhex(bytes), arrival: Number(arrival), interface: Number(from) };
  const [code, number] = answer.map(Number);
  const wanted = packet.bytes.slice();
  for (const change of list(answer[2])) {
    const [place, byte] = change.split("=");
    wanted[Number(place)] = parseInt(byte, 16);
  }
  expect(name, library.wholePacketStep(at, Number(now), packet), { code, number, bytes: wanted });
}

function byHand() {
  expect("written", library.wholePacketWrite(PACKET), SENT);
  expect("read", library.wholePacketRead(SENT), PACKET);
  refuses("cut", () => library.wholePacketRead(SENT.subarray(1)), Code.BAD_VERSION);
  const written = (change) => () => library.wholePacketWrite({ ...PACKET, ...change });
  const large = new Uint8Array(65536);
  const short = { path: PACKET.path.subarray(0, 35), payload: large };
  const host = { kind: 0, bytes: new Uint8Array(20) };
  refuses("flow", written({ info: { ...INFO, flowId: 1 << 20 }, ...short }), Code.BAD_FIELD);
  refuses("host", written({ info: { ...INFO, sourceHost: host }, ...short }), Code.BAD_FIELD);
  refuses("path", written(short), Code.BAD_HEADER, Code.SHORT);
  refuses("payload", written({ payload: large }), Code.PAYLOAD_TOO_LARGE);
  expect("largest", written({ payload: large.subarray(1) })().length, 84 + 65535);
  const back = unhex(FRONT_BACK + IPV6 + IPV4 + WAY_BACK + PAYLOAD);
  expect("reply", library.wholePacketReply(SENT), back);
  expect("reply again", library.wholePacketReply(back), SENT);
  refuses("no packet", () => library.wholePacketReply(SENT.subarray(0, 86)),
    Code.BAD_PAYLOAD_LENGTH);
}

cases.forEach(turn);
byHand();
console.log(`${cases.length} cases, ${count} answers, ${wrong} wrong`);
process.exit(wrong || cases.length === 0 ? 1 : 0);
