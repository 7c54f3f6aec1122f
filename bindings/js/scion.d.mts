// SPDX-License-Identifier: Apache-2.0
// The types of scion.mjs, which says what each call does.

/** The version of the calls. */
export const VERSION: string;

/** The kind of a link: what the AS at its far end is. */
export const Kind: Readonly<{
  CORE: 0;
  PARENT: 1;
  CHILD: 2;
}>;
export type Kind = (typeof Kind)[keyof typeof Kind];

/** How a packet came to a router. */
export const Arrival: Readonly<{
  FROM_HOST: 0;
  INSIDE: 1;
  OVER_LINK: 2;
}>;
export type Arrival = (typeof Arrival)[keyof typeof Arrival];

/** The result of a call, or why it was refused. */
export const Code: Readonly<{
  TO_LINK: 0;
  TO_ROUTER: 1;
  DELIVER: 2;
  BAD_CALL: 9;
  BAD_FIELD: 11;
  DUPLICATE_IF: 13;
  SHORT: 20;
  RESERVED: 21;
  PEER_FLAG: 22;
  ALERT_FLAG: 23;
  SEG_LENS: 24;
  TOO_MANY_HOPS: 25;
  BAD_INDEX: 26;
  PACKET_ROOM_TOO_SMALL: 27;
  BAD_HEADER: 90;
  INDEX_MISMATCH: 91;
  WRONG_INGRESS: 92;
  EXPIRED: 93;
  BAD_MAC: 94;
  SOURCE_AS: 95;
  DESTINATION_AS: 96;
  SWITCH_INSIDE: 97;
  UNKNOWN_EGRESS: 98;
  LINK_KINDS: 99;
  LINK_DOWN: 100;
  SHORT_PACKET: 160;
  BAD_VERSION: 161;
  BAD_PATH_TYPE: 162;
  BAD_HEADER_LENGTH: 163;
  BAD_PAYLOAD_LENGTH: 164;
  PAYLOAD_TOO_LARGE: 165;
}>;
export type Code = (typeof Code)[keyof typeof Code];

/** A call was refused for all of its packets, or has no value to return. At BAD_HEADER `header` is
 * the refusal of the path header, and else 0. */
export class Refused extends Error {
  constructor(code: Code, header?: Code);
  readonly code: Code;
  readonly header: Code;
}

/** An interface of an AS. A kind without meaning is answered with BAD_CALL. */
export interface Interface {
  readonly number: number;
  readonly kind: number;
  readonly router?: number;
  readonly up?: boolean;
}

/** A router, with the interfaces of its whole AS. `ia` has 16 bits of ISD and 48 of AS number;
 * `previous` is the key before; `router` is its number in the AS. */
export interface Router {
  readonly ia: bigint;
  readonly key: Uint8Array;
  readonly interfaces: Iterable<Interface>;
  readonly previous?: Uint8Array;
  readonly router?: number;
}

/** A packet that came to a router, over the link at `interface` if it came over a link. */
export interface Packet {
  readonly bytes: Uint8Array;
  readonly arrival?: number;
  readonly interface?: number;
}

/** The address of a host: its type, 0 to 3, and 4, 8, 12 or 16 bytes. */
export interface Host {
  readonly kind: number;
  readonly bytes: Uint8Array;
}

/** What a whole packet says besides its path and its payload. */
export interface PacketInfo {
  readonly destination: bigint;
  readonly source: bigint;
  readonly destinationHost: Host;
  readonly sourceHost: Host;
  readonly nextHeader: number;
  readonly trafficClass?: number;
  readonly flowId?: number;
  readonly reserved?: number;
}

/** A packet as it is on the wire: what it says, its path header, its payload. */
export interface WholePacket {
  readonly info: PacketInfo;
  readonly path: Uint8Array;
  readonly payload: Uint8Array;
}

/** The answer to a step: its code, its number, and the bytes of the packet after it. */
export interface Answer {
  readonly code: Code;
  readonly number: number;
  readonly bytes: Uint8Array;
}

/** The calls of a module, made by `load`. */
export class Library {
  private constructor();
  get room(): number;
  step(router: Router, now: number, packet: Packet): Answer;
  wholePacketStep(router: Router, now: number, packet: Packet): Answer;
  stepAll(router: Router, now: number, packets: Iterable<Packet>): Answer[];
  wholePacketRead(bytes: Uint8Array): WholePacket;
  wholePacketWrite(packet: WholePacket): Uint8Array;
  wholePacketReply(bytes: Uint8Array): Uint8Array;
  headerLength(bytes: Uint8Array): number;
  headerReverse(bytes: Uint8Array): Uint8Array;
  hopMac(
    key: Uint8Array,
    beta: number,
    timestamp: number,
    expTime: number,
    consIngress: number,
    consEgress: number,
  ): Uint8Array;
}

/** The library of a module's bytes. */
export function load(bytes: BufferSource): Promise<Library>;
