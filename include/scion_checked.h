/* SPDX-License-Identifier: Apache-2.0 */
/* The calls of scion.h, each behind a check of what a host has to keep about pointers.
 *
 * Include this header in place of scion.h, at least while a program is tested. A call is refused,
 * and nothing has changed, where a pointer is null, or where something that the call may write
 * overlaps anything else that it is given. scion_step_all compares each packet with each other one,
 * so that its time grows with the square of their number.
 *
 * It needs no library of its own. What a pointer points to, and what other threads do meanwhile,
 * can't be checked.
 */
#ifndef SCION_CHECKED_H
#define SCION_CHECKED_H
#include "scion.h"
#ifdef __cplusplus
extern "C" {
#endif

/* What happened to an answer that is refused here. */
enum {
    SCION_BAD_ROOM = 3 /* a pointer is null, or the room overlaps the request */
};

/* Bytes that a call is given. */
typedef struct {
    const void *start;
    size_t len;
} scion_bytes;

static inline scion_bytes scion_bytes_at(const void *start, size_t len) {
    scion_bytes bytes = {start, len};
    return bytes;
}

/* Whether both have a byte in common. */
static inline int scion_overlap(scion_bytes one, scion_bytes other) {
    uintptr_t a = (uintptr_t)one.start, b = (uintptr_t)other.start;
    if (one.len == 0 || other.len == 0) return 0;
    return a < b ? b - a < one.len : a - b < other.len;
}

static inline scion_bytes scion_bytes_of_packet(const scion_packet *packet) {
    return scion_bytes_at(packet->bytes, packet->len);
}

static inline scion_answer scion_bad_call(void) {
    scion_answer answer = {SCION_BAD_CALL, 0};
    return answer;
}

/* Whether no pointer of the router is null. */
static inline int scion_has_parts(const scion_router *router) {
    return router && router->key && router->previous && router->interfaces;
}

/* Whether these bytes lie apart from the router and all its parts. */
static inline int scion_is_apart(const scion_router *router, scion_bytes written) {
    size_t table = router->interfaces_len * sizeof *router->interfaces;
    return !scion_overlap(written, scion_bytes_at(router, sizeof *router)) &&
           !scion_overlap(written, scion_bytes_at(router->key, router->key_len)) &&
           !scion_overlap(written, scion_bytes_at(router->previous, router->previous_len)) &&
           !scion_overlap(written, scion_bytes_at(router->interfaces, table));
}

/* Whether the packet at this place lies apart from the router, the records and all packets before
 * it. */
static inline int scion_may_step(const scion_router *router, const scion_packet *packets,
                                 size_t len, size_t place) {
    scion_bytes packet = scion_bytes_of_packet(&packets[place]);
    if (!packet.start || !scion_is_apart(router, packet)) return 0;
    if (scion_overlap(packet, scion_bytes_at(packets, len * sizeof *packets))) return 0;
    for (size_t before = 0; before < place; before++)
        if (scion_overlap(packet, scion_bytes_of_packet(&packets[before]))) return 0;
    return 1;
}

/* scion_step; SCION_BAD_CALL also where a duty is not kept. */
static inline scion_answer scion_step_checked(const scion_router *router, uint32_t now,
                                              uint8_t arrival, uint16_t interface, uint8_t *packet,
                                              size_t len) {
    if (!packet || !scion_has_parts(router)) return scion_bad_call();
    if (!scion_is_apart(router, scion_bytes_at(packet, len))) return scion_bad_call();
    return scion_step(router, now, arrival, interface, packet, len);
}

/* scion_step_all; SCION_BAD_CALL also where a duty is not kept. */
static inline scion_answer scion_step_all_checked(const scion_router *router, uint32_t now,
                                                  scion_packet *packets, size_t len) {
    if (!packets || !scion_has_parts(router)) return scion_bad_call();
    if (!scion_is_apart(router, scion_bytes_at(packets, len * sizeof *packets)))
        return scion_bad_call();
    for (size_t place = 0; place < len; place++)
        if (!scion_may_step(router, packets, len, place)) return scion_bad_call();
    return scion_step_all(router, now, packets, len);
}

/* scion_whole_packet_step; SCION_BAD_CALL also where a duty is not kept. */
static inline scion_answer scion_whole_packet_step_checked(const scion_router *router,
                                                           uint32_t now, uint8_t arrival,
                                                           uint16_t interface, uint8_t *packet,
                                                           size_t len) {
    if (!packet || !scion_has_parts(router)) return scion_bad_call();
    if (!scion_is_apart(router, scion_bytes_at(packet, len))) return scion_bad_call();
    return scion_whole_packet_step(router, now, arrival, interface, packet, len);
}

/* scion_whole_packet_read; SCION_BAD_CALL where a duty is not kept. */
static inline scion_answer scion_whole_packet_read_checked(const uint8_t *packet, size_t len,
                                                           scion_packet_info *info) {
    if (!packet || !info) return scion_bad_call();
    if (scion_overlap(scion_bytes_at(info, sizeof *info), scion_bytes_at(packet, len)))
        return scion_bad_call();
    return scion_whole_packet_read(packet, len, info);
}

/* scion_whole_packet_write; SCION_BAD_CALL where a duty is not kept. */
static inline scion_answer scion_whole_packet_write_checked(const scion_packet_info *info,
                                                            const uint8_t *path, size_t path_len,
                                                            const uint8_t *payload,
                                                            size_t payload_len, uint8_t *room,
                                                            size_t room_len) {
    scion_bytes written = scion_bytes_at(room, room_len);
    if (!info || !path || !payload || !room) return scion_bad_call();
    if (scion_overlap(written, scion_bytes_at(info, sizeof *info)) ||
        scion_overlap(written, scion_bytes_at(path, path_len)) ||
        scion_overlap(written, scion_bytes_at(payload, payload_len)))
        return scion_bad_call();
    return scion_whole_packet_write(info, path, path_len, payload, payload_len, room, room_len);
}

/* scion_whole_packet_reply; SCION_BAD_CALL where the pointer is null. */
static inline scion_answer scion_whole_packet_reply_checked(uint8_t *packet, size_t len) {
    return packet ? scion_whole_packet_reply(packet, len) : scion_bad_call();
}

/* scion_header_check; SCION_BAD_CALL where the pointer is null. */
static inline scion_answer scion_header_check_checked(const uint8_t *bytes, size_t len) {
    return bytes ? scion_header_check(bytes, len) : scion_bad_call();
}

/* scion_header_reverse; SCION_BAD_CALL where the pointer is null. */
static inline scion_answer scion_header_reverse_checked(uint8_t *bytes, size_t len) {
    return bytes ? scion_header_reverse(bytes, len) : scion_bad_call();
}

/* scion_hop_mac; SCION_BAD_CALL where a duty is not kept. */
static inline scion_answer scion_hop_mac_checked(const uint8_t *key, size_t key_len, uint16_t beta,
                                                 uint32_t timestamp, uint8_t exp_time,
                                                 uint16_t cons_ingress, uint16_t cons_egress,
                                                 uint8_t mac[6]) {
    if (!key || !mac) return scion_bad_call();
    if (scion_overlap(scion_bytes_at(mac, 6), scion_bytes_at(key, key_len)))
        return scion_bad_call();
    return scion_hop_mac(key, key_len, beta, timestamp, exp_time, cons_ingress, cons_egress, mac);
}

/* Whether a request and a room may be given to one call. */
static inline int scion_may_answer(const uint8_t *request, size_t request_len, const uint8_t *room,
                                   size_t room_len) {
    return request && room &&
           !scion_overlap(scion_bytes_at(request, request_len), scion_bytes_at(room, room_len));
}

static inline scion_text scion_bad_room(void) {
    scion_text text = {SCION_BAD_ROOM, 0};
    return text;
}

/* scion_paths; SCION_BAD_ROOM where a duty is not kept. */
static inline scion_text scion_paths_checked(const uint8_t *request, size_t request_len,
                                             uint8_t *room, size_t room_len) {
    if (!scion_may_answer(request, request_len, room, room_len)) return scion_bad_room();
    return scion_paths(request, request_len, room, room_len);
}

/* scion_verify; SCION_BAD_ROOM where a duty is not kept. */
static inline scion_text scion_verify_checked(const uint8_t *request, size_t request_len,
                                              uint8_t *room, size_t room_len) {
    if (!scion_may_answer(request, request_len, room, room_len)) return scion_bad_room();
    return scion_verify(request, request_len, room, room_len);
}

#define scion_step scion_step_checked
#define scion_step_all scion_step_all_checked
#define scion_whole_packet_step scion_whole_packet_step_checked
#define scion_whole_packet_read scion_whole_packet_read_checked
#define scion_whole_packet_write scion_whole_packet_write_checked
#define scion_whole_packet_reply scion_whole_packet_reply_checked
#define scion_header_check scion_header_check_checked
#define scion_header_reverse scion_header_reverse_checked
#define scion_hop_mac scion_hop_mac_checked
#define scion_paths scion_paths_checked
#define scion_verify scion_verify_checked

#ifdef __cplusplus
}
#endif
#endif
