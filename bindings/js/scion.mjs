// SPDX-License-Identifier: Apache-2.0
// The proved router for JavaScript, over WebAssembly with 64-bit addresses.
//
//   import { readFile } from "node:fs/promises";
//   import { load } from "./scion.mjs";
//   const library = await load(await readFile("scion.wasm"));
//
// Calls read all that they are given into values of their own, which may run code of the host: a
// getter, an iterator. Only then do they copy these into a fixed part of the module's memory, which
// they clear before they return. So that code may call the library too. They refuse what is no
// Uint8Array by TypeError, and by RangeError a number that does not fit its place, or bytes for
// which that part has no room. The library is proved, and this module is not: bindings/README.md
// says what a host has to keep.

export const VERSION = "0.1.0";

/** The kind of a link: what the AS at its far end is. */
export const Kind = Object.freeze({
  CORE: 0,
  PARENT: 1,
  CHILD: 2,
});

/** How a packet came to a router. */
export const Arrival = Object.freeze({
  FROM_HOST: 0,
  INSIDE: 1,
  OVER_LINK: 2,
});

/** The result of a call, or why it was refused. */
export const Code = Object.freeze({
  TO_LINK: 0,
  TO_ROUTER: 1,
  DELIVER: 2,
  BAD_CALL: 9,
  BAD_FIELD: 11,
  DUPLICATE_IF: 13,
  SHORT: 20,
  RESERVED: 21,
  PEER_FLAG: 22,
  ALERT_FLAG: 23,
  SEG_LENS: 24,
  TOO_MANY_HOPS: 25,
  BAD_INDEX: 26,
  PACKET_ROOM_TOO_SMALL: 27,
  BAD_HEADER: 90,
  INDEX_MISMATCH: 91,
  WRONG_INGRESS: 92,
  EXPIRED: 93,
  BAD_MAC: 94,
  SOURCE_AS: 95,
  DESTINATION_AS: 96,
  SWITCH_INSIDE: 97,
  UNKNOWN_EGRESS: 98,
  LINK_KINDS: 99,
  LINK_DOWN: 100,
  SHORT_PACKET: 160,
  BAD_VERSION: 161,
  BAD_PATH_TYPE: 162,
  BAD_HEADER_LENGTH: 163,
  BAD_PAYLOAD_LENGTH: 164,
  PAYLOAD_TOO_LARGE: 165,
});

const NAMES = new Map(Object.entries(Code).map(([name, code]) => [code, name]));

/** A call was refused for all of its packets, or has no value to return. At BAD_HEADER `header` is
 * the refusal of the path header, and else 0. */
export class Refused extends Error {
  constructor(code, header = 0) {
    super([code, header].filter(Boolean).map((it) => `${it} ${NAMES.get(it)}`).join(" "));
    this.name = "Refused";
    this.code = code;
    this.header = header;
  }
}

const LARGEST_ALIGNMENT = 16;

/** The number, a whole one that has at most this many bits. */
function whole(name, value, bits) {
  if (!Number.isInteger(value) || value < 0 || value >= 2 ** bits) {
    throw new RangeError(`${name} is ${value}, which is no number of ${bits} bits`);
  }
  return value;
}

/** An address of an AS, a BigInt of 64 bits. */
function address(ia, name = "ia") {
  if (typeof ia !== "bigint" || BigInt.asUintN(64, ia) !== ia) {
    throw new RangeError(`${name} is ${ia}, which is no BigInt of 64 bits`);
  }
  return ia;
}

/** The bytes as they are now: their length may change if they are shared. */
function copy(name, bytes) {
  if (!(bytes instanceof Uint8Array)) throw new TypeError(`${name} is no Uint8Array`);
  return new Uint8Array(bytes);
}

/** A scion_interface. */
function row({ number, kind, router = 0, up = true }) {
  whole("number", number, 16);
  const own = [whole("kind", kind, 8), whole("router", router, 8), whole("up", Number(up), 8)];
  return [number & 255, number >> 8, ...own, 0];
}

// A scion_packet_info has 62 bytes and two behind them; its hosts are at 26 and 44.
const INFO_LENGTH = 64;
const HOST_PLACES = [26, 44];

// The most bytes of the headers in front of a path header.
const MAX_FRONT_LENGTH = 60;

/** What is read of a host's address: its type, and its bytes. */
function hostRead(name, { kind, bytes }) {
  return [whole(`the type of ${name}`, kind, 8), copy(name, bytes)];
}

/** A scion_packet_info of what a packet says. */
function infoRow(info) {
  const { destination, source, nextHeader, trafficClass = 0, flowId = 0, reserved = 0 } = info;
  const hosts = [
    hostRead("destinationHost", info.destinationHost),
    hostRead("sourceHost", info.sourceHost),
  ];
  const bytes = new Uint8Array(INFO_LENGTH);
  const view = new DataView(bytes.buffer);
  view.setBigUint64(0, address(destination, "destination"), true);
  view.setBigUint64(8, address(source, "source"), true);
  view.setUint32(16, whole("flowId", flowId, 32), true);
  view.setUint16(20, whole("reserved", reserved, 16), true);
  view.setUint8(24, whole("trafficClass", trafficClass, 8));
  view.setUint8(25, whole("nextHeader", nextHeader, 8));
  hosts.forEach(([kind, data], i) => {
    // An address of more than 16 bytes is refused by its length.
    bytes.set([kind, Math.min(data.length, 255), ...data.subarray(0, 16)], HOST_PLACES[i]);
  });
  return bytes;
}

/** What a packet says, from a scion_packet_info; and where its path header begins. */
function infoOf(bytes) {
  const view = new DataView(bytes.buffer);
  const [destinationHost, sourceHost] = HOST_PLACES.map((at) => {
    return { kind: bytes[at], bytes: bytes.slice(at + 2, at + 2 + bytes[at + 1]) };
  });
  const info = {
    destination: view.getBigUint64(0, true),
    source: view.getBigUint64(8, true),
    destinationHost,
    sourceHost,
    nextHeader: bytes[25],
    trafficClass: bytes[24],
    flowId: view.getUint32(16, true),
    reserved: view.getUint16(20, true),
  };
  return [info, view.getUint16(22, true)];
}

/** The part of the memory in which the arguments of a call are: what the module does not use. */
class Arena {
  constructor({ memory, __heap_base: base }) {
    this.memory = memory;
    this.base = Math.ceil(Number(base.value) / LARGEST_ALIGNMENT) * LARGEST_ALIGNMENT;
    this.free = this.base;
    this.end = memory.buffer.byteLength;
  }

  /** Copies bytes there, and returns their address. No two share a byte. */
  put(bytes) {
    const length = Math.max(bytes.length, 1);
    const ends = this.free + Math.ceil(length / LARGEST_ALIGNMENT) * LARGEST_ALIGNMENT;
    if (ends > this.end) throw new RangeError(`a call has room for ${this.end - this.base} bytes`);
    const at = this.free;
    new Uint8Array(this.memory.buffer).set(bytes, at);
    this.free = ends;
    return at;
  }

  /** Copies words of 64 bits there. */
  words(values) {
    return this.put(new Uint8Array(new BigUint64Array(values.map(BigInt)).buffer));
  }

  /** The bytes that are there now. */
  bytes(at, length) {
    return new Uint8Array(this.memory.buffer, at, length).slice();
  }

  /** A scion_answer. */
  answer(at) {
    const view = new DataView(this.memory.buffer, at, 4);
    return { code: view.getUint16(0, true), number: view.getUint16(2, true) };
  }

  /** What this makes of the arena, which is cleared and given back after it. */
  within(call) {
    try {
      return call(this);
    } finally {
      new Uint8Array(this.memory.buffer).fill(0, this.base, this.free);
      this.free = this.base;
    }
  }
}

/** What is read of a router. */
function routerRead({ ia, key, interfaces, previous = new Uint8Array(), router = 0 }) {
  const keys = [copy("key", key), copy("previous", previous)];
  const rows = Array.from(interfaces, row);
  return { ia: address(ia), keys, rows, router: whole("router", router, 8) };
}

/** A scion_router of what was read. */
function parts(arena, { ia, keys, rows, router }) {
  const slices = keys.flatMap((it) => [arena.put(it), it.length]);
  const table = arena.put(rows.flat());
  return arena.words([ia, ...slices, table, rows.length, router]);
}

/** What is read of a packet: its bytes, how it came, and by which interface. */
function packetRead({ bytes, arrival = Arrival.FROM_HOST, interface: number = 0 }) {
  return [copy("packet", bytes), whole("arrival", arrival, 8), whole("interface", number, 16)];
}

/** The calls of a module. A router is `{ ia, key, interfaces, previous, router }`, whose interfaces
 * are `{ number, kind, router, up }`; a packet is `{ bytes, arrival, interface }`. A whole packet
 * is `{ info, path, payload }`, whose info is `{ destination, source, destinationHost, sourceHost,
 * nextHeader, trafficClass, flowId, reserved }`; a host is `{ kind, bytes }`. */
export class Library {
  #calls;
  #arena;

  constructor(instance) {
    this.#calls = instance.exports;
    this.#arena = new Arena(instance.exports);
  }

  /** The bytes that the arguments of a call may have, those of all its packets together. */
  get room() {
    return this.#arena.end - this.#arena.base;
  }

  /** One step of a router on a packet, at the second `now`: the code, the number and the bytes
   * after it. */
  step(router, now, packet) {
    return this.#step(this.#calls.scion_step, router, now, packet);
  }

  /** The same step on a packet whose bytes are a whole packet. */
  wholePacketStep(router, now, packet) {
    return this.#step(this.#calls.scion_whole_packet_step, router, now, packet);
  }

  #step(call, router, now, packet) {
    const [bytes, ...came] = packetRead(packet);
    const [own, second] = [routerRead(router), whole("now", now, 32)];
    return this.#arena.within((arena) => {
      const words = [parts(arena, own), arena.put(bytes), arena.put([0, 0, 0, 0])];
      const [at, room, answer] = words.map(BigInt);
      call(answer, at, second, ...came, room, BigInt(bytes.length));
      return { ...arena.answer(words[2]), bytes: arena.bytes(words[1], bytes.length) };
    });
  }

  /** One step on each packet; Refused if there is no such router. */
  stepAll(router, now, packets) {
    const copies = Array.from(packets, packetRead);
    const [own, second] = [routerRead(router), whole("now", now, 32)];
    return this.#arena.within((arena) => {
      const rooms = copies.map(([bytes]) => arena.put(bytes));
      // A scion_packet has 24 bytes: its answer is at 18, and how it came at 22.
      const records = copies.flatMap(([bytes, arrival, number], i) => {
        const came = BigInt(number) | (BigInt(arrival) << 48n);
        return [BigInt(rooms[i]), BigInt(bytes.length), came];
      });
      const table = arena.words(records);
      const given = arena.put([0, 0, 0, 0]);
      const words = [given, parts(arena, own)].map(BigInt);
      const counted = [BigInt(table), BigInt(copies.length)];
      this.#calls.scion_step_all(...words, second, ...counted);
      done(arena.answer(given));
      return copies.map(([bytes], i) => {
        return { ...arena.answer(table + 24 * i + 18), bytes: arena.bytes(rooms[i], bytes.length) };
      });
    });
  }

  /** The whole packet that these bytes are; Refused if they are none. */
  wholePacketRead(bytes) {
    const data = copy("bytes", bytes);
    return this.#arena.within((arena) => {
      const places = [arena.put([0, 0, 0, 0]), arena.put(data)];
      const record = arena.put(new Uint8Array(INFO_LENGTH));
      const [answer, room] = places.map(BigInt);
      const length = BigInt(data.length);
      this.#calls.scion_whole_packet_read(answer, room, length, BigInt(record));
      const end = done(arena.answer(places[0]));
      const [info, start] = infoOf(arena.bytes(record, INFO_LENGTH));
      return { info, path: data.slice(start, end), payload: data.slice(end) };
    });
  }

  /** The bytes of a whole packet; Refused if it has none. */
  wholePacketWrite({ info, path, payload }) {
    const given = [infoRow(info), copy("path", path), copy("payload", payload)];
    const length = MAX_FRONT_LENGTH + given[1].length + given[2].length;
    return this.#arena.within((arena) => {
      const answer = arena.put([0, 0, 0, 0]);
      const [record, ...slices] = given.map((it) => [arena.put(it), it.length]);
      const room = arena.put(new Uint8Array(length));
      const words = [answer, record[0], ...slices.flat(), room, length].map(BigInt);
      this.#calls.scion_whole_packet_write(...words);
      return arena.bytes(room, done(arena.answer(answer)) + given[2].length);
    });
  }

  /** The reply to a whole packet, with its payload; Refused if the bytes are none. */
  wholePacketReply(bytes) {
    return this.#header(this.#calls.scion_whole_packet_reply, bytes).bytes;
  }

  /** The length of the path header at the front; Refused if there is none. */
  headerLength(bytes) {
    return this.#header(this.#calls.scion_header_check, bytes).number;
  }

  /** The bytes with the header of the way back; Refused if there is no header. */
  headerReverse(bytes) {
    return this.#header(this.#calls.scion_header_reverse, bytes).bytes;
  }

  #header(call, bytes) {
    const data = copy("bytes", bytes);
    return this.#arena.within((arena) => {
      const [room, answer] = [arena.put(data), arena.put([0, 0, 0, 0])];
      call(BigInt(answer), BigInt(room), BigInt(data.length));
      return { number: done(arena.answer(answer)), bytes: arena.bytes(room, data.length) };
    });
  }

  /** The authenticator of a hop; Refused if the key is not of 1 to 64 bytes. */
  hopMac(key, beta, timestamp, expTime, consIngress, consEgress) {
    const data = copy("key", key);
    const values = [
      whole("beta", beta, 16),
      whole("timestamp", timestamp, 32),
      whole("expTime", expTime, 8),
      whole("consIngress", consIngress, 16),
      whole("consEgress", consEgress, 16),
    ];
    return this.#arena.within((arena) => {
      const [at, answer] = [arena.put(data), arena.put([0, 0, 0, 0])];
      const mac = arena.put(new Uint8Array(6));
      const slice = [BigInt(at), BigInt(data.length)];
      this.#calls.scion_hop_mac(BigInt(answer), ...slice, ...values, BigInt(mac));
      done(arena.answer(answer));
      return arena.bytes(mac, 6);
    });
  }
}

/** The number of an answer that is no refusal. */
function done({ code, number }) {
  if (code !== 0) throw new Refused(code, number);
  return number;
}

/** The library of a module's bytes. */
export async function load(bytes) {
  const { instance } = await WebAssembly.instantiate(bytes, {});
  return new Library(instance);
}
