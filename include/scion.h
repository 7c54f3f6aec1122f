/* SPDX-License-Identifier: Apache-2.0 */
/* A router, packets, path headers and authenticators of SCION: each call does what a proved
 * contract says.
 *
 * Link libscion_ffi.a, which needs memcpy, memmove and memset and nothing else. Its calls take no
 * memory, keep no pointer, and return after a time that the lengths bound. They answer all values
 * of their arguments, so that a host need not check them first.
 *
 * A host keeps these duties, which these calls don't check; scion_checked.h does, as far as can be:
 * - no pointer is null, not even if its length is 0;
 * - each points to as many items as its length says, and they are aligned;
 * - what a call reads is initialized. What it only writes need not be: `mac`, a room, the answers
 *   in the records of packets, and a scion_packet_info that is read;
 * - what a call may write lies apart from all else that it is given: a packet from other packets,
 *   keys, interfaces and records; `mac` from the key; a room from the request, and from the path,
 *   the payload and the record of a packet that is written; such a record from a packet that is
 *   read;
 * - while a call runs, nobody else writes what it reads, or reads or writes what it may write.
 * Calls on different bytes may run on different threads at the same time.
 *
 * No call reads a clock. `now` and timestamps are seconds of one clock, that of the ASes which made
 * the segments. Nothing is promised about the secrecy of keys: a call may leave parts of them on
 * its stack, and its time may depend on them and on the authenticators that it compares.
 */
#ifndef SCION_H
#define SCION_H
#include <stddef.h>
#include <stdint.h>
#ifdef __cplusplus
extern "C" {
#endif

/* The version of these calls. */
#define SCION_VERSION "0.1.0"

/* The result. A call that does not step a packet answers SCION_DONE. */
enum {
    SCION_DONE = 0,
    SCION_TO_LINK = 0,   /* the packet goes over the link at interface `number` */
    SCION_TO_ROUTER = 1, /* the packet goes to router `number` of the same AS */
    SCION_DELIVER = 2    /* the packet is for a host of this AS */
};

/* Why a call was refused. None of its arguments has changed then. */
enum {
    SCION_BAD_CALL = 9,      /* no such kind, state or way in, or more than 256 interfaces */
    SCION_BAD_FIELD = 11,    /* a wildcard address, interface 0, or a key not of 1 to 64 bytes; a
                                flow or a host's address of a packet that is written */
    SCION_DUPLICATE_IF = 13, /* two interfaces have the same number */

    SCION_SHORT = 20,        /* the bytes end before the header does */
    SCION_RESERVED = 21,
    SCION_PEER_FLAG = 22,
    SCION_ALERT_FLAG = 23,
    SCION_SEG_LENS = 24,
    SCION_TOO_MANY_HOPS = 25,
    SCION_BAD_INDEX = 26,

    SCION_PACKET_ROOM_TOO_SMALL = 27, /* the room is shorter than the packet */

    SCION_BAD_HEADER = 90,   /* `number` is one of 20 to 26 */
    SCION_INDEX_MISMATCH = 91,
    SCION_WRONG_INGRESS = 92,
    SCION_EXPIRED = 93,
    SCION_BAD_MAC = 94,
    SCION_SOURCE_AS = 95,
    SCION_DESTINATION_AS = 96,
    SCION_SWITCH_INSIDE = 97,
    SCION_UNKNOWN_EGRESS = 98,
    SCION_LINK_KINDS = 99,
    SCION_LINK_DOWN = 100,

    SCION_SHORT_PACKET = 160,   /* the bytes end before the addresses do */
    SCION_BAD_VERSION = 161,
    SCION_BAD_PATH_TYPE = 162,  /* the path is no SCION path */
    SCION_BAD_HEADER_LENGTH = 163,
    SCION_BAD_PAYLOAD_LENGTH = 164,
    SCION_PAYLOAD_TOO_LARGE = 165, /* above 65,535 bytes */
};

/* What the AS at the far end of a link is: another core AS, a parent, or a child. */
enum { SCION_CORE = 0, SCION_PARENT = 1, SCION_CHILD = 2 };

/* How a packet came: from a host of the AS, from another router of it, or over a link. */
enum { SCION_FROM_HOST = 0, SCION_INSIDE = 1, SCION_OVER_LINK = 2 };

typedef struct {
    uint16_t code;   /* the result, or the refusal */
    uint16_t number; /* an interface, a router, a length, or at 90 the header's refusal; else 0 */
} scion_answer;

typedef struct {
    uint16_t number; /* not 0 */
    uint8_t kind;    /* SCION_CORE, SCION_PARENT or SCION_CHILD */
    uint8_t router;  /* the number of the router that owns it, 0 to 255 */
    uint8_t up;      /* 1, or 0 for a link that is down */
} scion_interface;

typedef struct {
    uint64_t ia;                       /* of its AS: 16 bits of ISD, then 48 of AS number */
    const uint8_t *key;                /* in use: 1 to 64 bytes */
    size_t key_len;
    const uint8_t *previous;           /* the key before it */
    size_t previous_len;               /* 0 if there is none, else 1 to 64 */
    const scion_interface *interfaces; /* of the whole AS, in any order */
    size_t interfaces_len;             /* at most 256 */
    uint8_t router;                    /* its number in the AS, 0 to 255 */
} scion_router;

typedef struct {
    uint8_t *bytes;
    size_t len;
    uint16_t interface;  /* by which it came, if it came over a link */
    scion_answer answer; /* written by scion_step_all */
    uint8_t arrival;     /* SCION_FROM_HOST, SCION_INSIDE or SCION_OVER_LINK */
} scion_packet;

/* The address of a host: type 0 with 4 bytes is IPv4, with 16 bytes IPv6, type 1 with 4 bytes a
 * service. */
typedef struct {
    uint8_t kind;      /* its type, 0 to 3 */
    uint8_t len;       /* 4, 8, 12 or 16 */
    uint8_t bytes[16]; /* the first `len` of them; a call writes zeros behind these */
} scion_host;

/* What a whole packet says besides its path and its payload. */
typedef struct {
    uint64_t destination;  /* the AS: 16 bits of ISD, then 48 of AS number */
    uint64_t source;
    uint32_t flow_id;      /* below 2^20 */
    uint16_t reserved;     /* two bytes of the packet, 0 but for a reason */
    uint16_t path_start;   /* where the path header begins; not looked at by a call that writes */
    uint8_t traffic_class;
    uint8_t next_header;   /* with what the payload begins, as 17 for UDP */
    scion_host destination_host;
    scion_host source_host;
} scion_packet_info;

/* One step of a router on a packet, in place, at the second `now`. A packet is 8 bytes of
 * destination, 8 of source, a path header and a payload; scion_whole_packet_step takes packets with
 * all their headers. Codes: 0, 1, 2; 9, 11, 13; 90 to 100.
 * With code 0, 1 or 2 only bytes of its header may have changed, with any other code no byte has. A
 * packet that came over a link and is delivered may have changed too: a reply needs its bytes as
 * they are then. */
scion_answer scion_step(const scion_router *router, uint32_t now, uint8_t arrival,
                        uint16_t interface, uint8_t *packet, size_t len);

/* One step on each packet, as of scion_step, with the answer in its record. The router's keys are
 * hashed once for all packets. Codes: SCION_DONE; or 9, 11, 13 if there is no such router, and then
 * no packet and no answer has changed. */
scion_answer scion_step_all(const scion_router *router, uint32_t now, scion_packet *packets,
                            size_t len);

/* The same step on a whole packet, as it is on the wire between border routers: common header,
 * address header, path header and payload (docs/router.md). Codes: 0, 1, 2; 9, 11, 13; 160 to 164
 * if the bytes are no whole packet, and 90 if they have no path header; 91 to 100. */
scion_answer scion_whole_packet_step(const scion_router *router, uint32_t now, uint8_t arrival,
                                     uint16_t interface, uint8_t *packet, size_t len);

/* Writes what a whole packet says to `info`: SCION_DONE and the length of all headers. The path
 * header stands between info->path_start and there, and the payload behind it. Else 90 or one of
 * 160 to 164, and `info` has not changed. */
scion_answer scion_whole_packet_read(const uint8_t *packet, size_t len, scion_packet_info *info);

/* Writes a whole packet to the front of the room: what `info` says, the path header with which
 * `path` begins, and a payload. SCION_DONE and the length of all headers, so that the packet has
 * this length and payload_len. Else the first of 11, 90, 165 and 27, and the room has not changed.
 */
scion_answer scion_whole_packet_write(const scion_packet_info *info, const uint8_t *path,
                                      size_t path_len, const uint8_t *payload, size_t payload_len,
                                      uint8_t *room, size_t room_len);

/* Replaces a whole packet by the reply to it, of the same length: hosts and ASes are exchanged, the
 * path is that of the way back, and the rest stays. SCION_DONE; or 90 or one of 160 to 164, and no
 * byte has changed. */
scion_answer scion_whole_packet_reply(uint8_t *packet, size_t len);

/* Whether these bytes begin with a path header: SCION_DONE and its length in bytes, at most 796, or
 * one of 20 to 26. */
scion_answer scion_header_check(const uint8_t *bytes, size_t len);

/* Replaces the path header at the front of these bytes by that of the way back, which has the same
 * length. It answers as scion_header_check does. Bytes after the header stay. */
scion_answer scion_header_reverse(uint8_t *bytes, size_t len);

/* Writes the authenticator of a hop under a key to `mac`: SCION_DONE, or SCION_BAD_FIELD if the key
 * is empty or has more than 64 bytes. */
scion_answer scion_hop_mac(const uint8_t *key, size_t key_len, uint16_t beta, uint32_t timestamp,
                           uint8_t exp_time, uint16_t cons_ingress, uint16_t cons_egress,
                           uint8_t mac[6]);

/* ---- Paths: link libscion_ffi_paths.a, and after it liblibc_c.a of the kit, which allocates by
 * malloc, realloc and free. A call frees all memory that it takes before it returns. */

/* What happened to an answer. */
enum {
    SCION_WRITTEN = 0,        /* its `len` bytes are at the front of the room */
    SCION_ROOM_TOO_SMALL = 1, /* it has `len` bytes, and the room has fewer */
    SCION_OUT_OF_MEMORY = 2
};

typedef struct {
    uint16_t status;
    size_t len;
} scion_text;

/* The largest number of bytes in a request. */
#define SCION_MAX_REQUEST 4194304

/* Answers a request for paths, a JSON object, with another object, which it writes to the room. The
 * room stays as it was if the status is not SCION_WRITTEN. bindings/README.md has both forms. */
scion_text scion_paths(const uint8_t *request, size_t request_len, uint8_t *room, size_t room_len);

/* Answers in the same way whether the path in the request may be sent. */
scion_text scion_verify(const uint8_t *request, size_t request_len, uint8_t *room, size_t room_len);

#ifdef __cplusplus
}
#endif
#endif
