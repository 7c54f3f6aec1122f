// Uses of the types of bindings/js, for tsc alone: nothing runs this. Behind each @ts-expect-error
// stands a use that the types have to refuse; tsc tells it if they don't. `made` is the module
// itself, whose types tsc infers from its code; `declared` has those that users get.
import { Arrival, Code, Kind, Refused, load } from "./scion.mjs";
import type { Answer, Library, Router, WholePacket } from "./scion.mjs";
import type * as declared from "./scion.mjs";
import type * as made from "./made.mjs";

/** Whether two types are one: none has a name or a number that the other lacks. */
type Same<A, B> = [A] extends [B] ? ([B] extends [A] ? true : false) : false;

/** The numbers of the arguments that the calls take. */
type Counts<Calls> = {
  [Name in keyof Calls]: Calls[Name] extends (...given: infer Given) => unknown
    ? Required<Given>["length"]
    : "no call";
};

export const same: true[] = [
  true as Same<keyof typeof declared, keyof typeof made>,
  true as Same<typeof declared.Kind, typeof made.Kind>,
  true as Same<typeof declared.Arrival, typeof made.Arrival>,
  true as Same<typeof declared.Code, typeof made.Code>,
  true as Same<keyof declared.Library, keyof made.Library>,
  true as Same<keyof declared.Refused, keyof made.Refused>,
  true as Same<Counts<declared.Library>, Counts<made.Library>>,
];

const key = new Uint8Array([0x6b]);
const interfaces = [{ number: 2, kind: Kind.PARENT }, { number: 3, kind: Kind.CHILD, up: false }];
const router: Router = { ia: 0x0001ff0000000111n, key, interfaces: new Set(interfaces) };

export function steps(library: Library, bytes: Uint8Array): Answer[] {
  const over = { bytes, arrival: Arrival.OVER_LINK, interface: 2 };
  const { code, number, bytes: after } = library.step(router, 100, { bytes });
  const isGone: boolean = code === Code.TO_LINK && number === 2 && after.length > 0;
  const room: number = library.room;
  if (isGone && room > 0) return [library.wholePacketStep(router, 100, over)];
  return library.stepAll({ ...router, previous: key, router: 1 }, 100, [over]);
}

export function headers(library: Library, packet: WholePacket): number {
  const bytes: Uint8Array = library.wholePacketWrite(packet);
  const { info, path, payload } = library.wholePacketRead(library.wholePacketReply(bytes));
  const source: bigint = info.source;
  const mac: Uint8Array = library.hopMac(key, 0xb396, 100, 63, 2, 0);
  const back: Uint8Array = library.headerReverse(path);
  return library.headerLength(back) + payload.length + mac.length + Number(source);
}

export async function refused(module: Uint8Array): Promise<Code> {
  const library = await load(module);
  try {
    library.headerLength(module);
  } catch (fault) {
    if (fault instanceof Refused) return fault.code === Code.BAD_HEADER ? fault.header : fault.code;
  }
  return Code.TO_LINK;
}

export async function wrong(library: Library): Promise<void> {
  // @ts-expect-error: An address is a BigInt.
  library.step({ ...router, ia: 1 }, 100, { bytes: key });
  // @ts-expect-error: A key is bytes.
  library.step({ ...router, key: "6b" }, 100, { bytes: key });
  // @ts-expect-error: A router has interfaces.
  library.step({ ia: 1n, key }, 100, { bytes: key });
  // @ts-expect-error: An interface has a kind.
  library.step({ ...router, interfaces: [{ number: 2 }] }, 100, { bytes: key });
  // @ts-expect-error: A second is a number.
  library.step(router, 100n, { bytes: key });
  // @ts-expect-error: A packet is bytes of 8 bits.
  library.step(router, 100, { bytes: new Uint16Array(26) });
  // @ts-expect-error: Many packets are a list.
  library.stepAll(router, 100, { bytes: key });
  // @ts-expect-error: A step has a second.
  library.step(router, { bytes: key });
  // @ts-expect-error: What is answered can't be put in the place of a packet.
  library.wholePacketWrite(library.wholePacketReply(key));
  // @ts-expect-error: A code has a number of its own.
  if (library.step(router, 100, { bytes: key }).code === 3) return;
  // @ts-expect-error: There is no such code.
  if (Code.NO_SUCH_CODE) return;
  // @ts-expect-error: A library is loaded.
  new library.constructor.Library();
  // @ts-expect-error: The library comes later.
  load(key).step(router, 100, { bytes: key });
}
