/* SPDX-License-Identifier: Apache-2.0 */
/* The turns of docs/programs.md by hand, packets that were cut or changed on their way, and calls
 * that do not keep a host's duties.
 *
 * What is expected is said by the rules of a router, never by what the library answered. The status
 * is 1 where an answer differs. */
#include "scion_checked.h"
#include <stdio.h>
#include <string.h>

static unsigned count, wrong;

static size_t unhex(const char *text, uint8_t *to) {
    size_t len = 0;
    for (unsigned byte; sscanf(text + 2 * len, "%2x", &byte) == 1; len++) to[len] = (uint8_t)byte;
    return len;
}

static void expect(const char *what, scion_answer given, size_t code, size_t number) {
    count++;
    if (given.code == code && given.number == number) return;
    printf("%s: %u %u, and not %u %u\n", what, given.code, given.number, (unsigned)code,
           (unsigned)number);
    wrong++;
}

static void same(const char *what, const uint8_t *bytes, const uint8_t *wanted, size_t len) {
    count++;
    if (memcmp(bytes, wanted, len) == 0) return;
    printf("%s: other bytes\n", what);
    wrong++;
}

/* The packet of docs/programs.md: both addresses, a meta field that begins so, an info field, two
   hops. */
#define ADDRESSES "0001ff00000001100001ff0000000111"
#define OWN_HOP "003f00020000"
#define NEXT_HOP "003f00000001"
#define PACKET(first, mac) \
    ADDRESSES first "0020000000b39600000064" OWN_HOP mac NEXT_HOP "a1a2a3a4a5a6"
#define RIGHT "110e4c1d3dad"
#define OTHER "b1b2b3b4b5b6"
enum { LEN = 52, META = 16 };

static uint8_t empty[1];
static const scion_interface parent = {2, SCION_PARENT, 0, 1};
static const scion_interface down = {2, SCION_PARENT, 0, 0};

static scion_router router(uint64_t ia, const char *key, const char *previous,
                           const scion_interface *interfaces, size_t len) {
    scion_router parts = {ia,
                          (const uint8_t *)key,
                          strlen(key),
                          (const uint8_t *)previous,
                          strlen(previous),
                          interfaces,
                          len,
                          0};
    return parts;
}

/* One turn at 1-ff00:0:111 with a packet that a host sends. */
static void turn(const char *what, const char *hex, const char *key, const char *previous,
                 uint32_t now, const scion_interface *link, unsigned code, unsigned number,
                 const char *after) {
    uint8_t packet[LEN], wanted[LEN];
    size_t len = unhex(hex, packet);
    unhex(after, wanted);
    scion_router at = router(0x0001ff0000000111, key, previous, link, 1);
    expect(what, scion_step(&at, now, SCION_FROM_HOST, 0, packet, len), code, number);
    same(what, packet, wanted, len);
}

static void turns(void) {
    const char *right = PACKET("00", RIGHT), *gone = PACKET("01", RIGHT);
    const char *other = PACKET("00", OTHER);
    scion_interface kind = {2, 3, 0, 1}, none = {0, SCION_PARENT, 0, 1};
    turn("over the link", right, "k", "", 100, &parent, SCION_TO_LINK, 2, gone);
    turn("expired", right, "k", "", 21701, &parent, SCION_EXPIRED, 0, right);
    turn("link down", right, "k", "", 100, &down, SCION_LINK_DOWN, 0, right);
    turn("authenticator", other, "k", "", 100, &parent, SCION_BAD_MAC, 0, other);
    turn("key before", right, "l", "k", 100, &parent, SCION_TO_LINK, 2, gone);
    turn("no key", right, "", "", 100, &parent, SCION_BAD_FIELD, 0, right);
    turn("no such kind", right, "k", "", 100, &kind, SCION_BAD_CALL, 0, right);
    turn("interface 0", right, "k", "", 100, &none, SCION_BAD_FIELD, 0, right);
}

/* A packet at the last hop of its path is delivered; two calls are refused; and a packet is handed
 * to another router of its AS. */
static void ends(void) {
    const char *hex = ADDRESSES "010020000000b39600000064" OWN_HOP OTHER NEXT_HOP "7cc464f73e18";
    const scion_interface twice[2] = {parent, parent};
    scion_interface others[1] = {{2, SCION_PARENT, 7, 1}};
    uint8_t packet[LEN], wanted[LEN];
    size_t len = unhex(hex, packet);
    unhex(hex, wanted);
    scion_router at110 = router(0x0001ff0000000110, "k", "", &parent, 0);
    expect("delivered", scion_step(&at110, 100, SCION_INSIDE, 0, packet, len), SCION_DELIVER, 0);
    same("delivered", packet, wanted, len);
    expect("no way in", scion_step(&at110, 100, 3, 0, packet, len), SCION_BAD_CALL, 0);
    scion_router doubled = router(0x0001ff0000000110, "k", "", twice, 2);
    expect("twice", scion_step(&doubled, 100, SCION_INSIDE, 0, packet, len), SCION_DUPLICATE_IF, 0);
    len = unhex(PACKET("00", RIGHT), packet);
    scion_router at111 = router(0x0001ff0000000111, "k", "", others, 1);
    expect("inside", scion_step(&at111, 100, SCION_FROM_HOST, 0, packet, len), SCION_TO_ROUTER, 7);
    unhex(PACKET("00", RIGHT), wanted);
    same("inside", packet, wanted, len);
}

/* The packet of three ASes in a row before its last turn, and after it: against construction
 * direction the last router takes its own authenticator out of the accumulator too. */
#define ROW(accumulator) \
    "0001ff0000000110" "0001ff0000000112" "02003000" "0000" accumulator "000003e8" \
    "003f00010000ad8a52e6ab61" "003f0001000239b948f8a321" "003f00000001aef522c41890"

static void delivered(void) {
    const scion_interface child = {1, SCION_CHILD, 0, 1};
    uint8_t packet[64], wanted[64];
    size_t len = unhex(ROW("bcc1"), packet);
    unhex(ROW("1234"), wanted);
    scion_router at = router(0x0001ff0000000110, "a0", "", &child, 1);
    expect("by link", scion_step(&at, 1000, SCION_OVER_LINK, 1, packet, len), SCION_DELIVER, 0);
    same("by link", packet, wanted, len);
}

/* The answers of a router if one byte is changed by exclusive or. */
static const struct {
    unsigned byte, flip, code, number;
} changes[] = {
    {7, 0x01, SCION_DESTINATION_AS, 0},
    {15, 0x01, SCION_SOURCE_AS, 0},
    {16, 0x01, SCION_INDEX_MISMATCH, 0},
    {16, 0x02, SCION_BAD_HEADER, SCION_BAD_INDEX},
    {17, 0x04, SCION_BAD_HEADER, SCION_RESERVED},
    {18, 0x20, SCION_BAD_HEADER, SCION_SEG_LENS},
    {18, 0x30, SCION_INDEX_MISMATCH, 0},
    {20, 0x01, SCION_UNKNOWN_EGRESS, 0},
    {20, 0x02, SCION_BAD_HEADER, SCION_PEER_FLAG},
    {28, 0x01, SCION_BAD_HEADER, SCION_ALERT_FLAG},
};

static void changed(unsigned byte, unsigned flip, unsigned code, unsigned number) {
    uint8_t packet[LEN], wanted[LEN];
    scion_router at = router(0x0001ff0000000111, "k", "", &parent, 1);
    unhex(PACKET("00", RIGHT), packet);
    packet[byte] ^= (uint8_t)flip;
    memcpy(wanted, packet, LEN);
    if (code == SCION_TO_LINK) wanted[META] = 0x01;
    expect("changed", scion_step(&at, 100, SCION_FROM_HOST, 0, packet, LEN), code, number);
    same("changed", packet, wanted, LEN);
}

static void hostile(void) {
    scion_router at = router(0x0001ff0000000111, "k", "", &parent, 1);
    for (size_t len = 0; len < LEN; len++) {
        uint8_t packet[LEN];
        unhex(PACKET("00", RIGHT), packet);
        expect("cut off", scion_step(&at, 100, SCION_FROM_HOST, 0, packet, len), SCION_BAD_HEADER,
               SCION_SHORT);
    }
    for (size_t i = 0; i < sizeof changes / sizeof changes[0]; i++)
        changed(changes[i].byte, changes[i].flip, changes[i].code, changes[i].number);
    for (unsigned flip = 1; flip < 256; flip++) {
        for (unsigned byte = 34; byte < 40; byte++) changed(byte, flip, SCION_BAD_MAC, 0);
        for (unsigned byte = 42; byte < LEN; byte++) changed(byte, flip, SCION_TO_LINK, 2);
    }
}

/* Three packets in one call, the first cut off; and a router that does not exist. */
static void many(void) {
    uint8_t first[LEN], second[LEN], third[LEN], wanted[LEN];
    scion_packet packets[3] = {{first, 20, 0, {0, 0}, SCION_FROM_HOST},
                               {second, LEN, 0, {0, 0}, SCION_FROM_HOST},
                               {third, LEN, 0, {0, 0}, 9}};
    unhex(PACKET("00", RIGHT), first);
    unhex(PACKET("00", RIGHT), second);
    unhex(PACKET("00", RIGHT), third);
    unhex(PACKET("00", RIGHT), wanted);
    scion_router bad = router(0x0001ff0000000111, "", "", &parent, 1);
    expect("no router", scion_step_all(&bad, 100, packets, 3), SCION_BAD_FIELD, 0);
    expect("no router", packets[1].answer, 0, 0);
    same("no router", second, wanted, LEN);
    scion_router at = router(0x0001ff0000000111, "k", "", &parent, 1);
    expect("all", scion_step_all(&at, 100, packets, 3), SCION_DONE, 0);
    expect("first", packets[0].answer, SCION_BAD_HEADER, SCION_SHORT);
    expect("second", packets[1].answer, SCION_TO_LINK, 2);
    expect("third", packets[2].answer, SCION_BAD_CALL, 0);
    same("first", first, wanted, LEN);
    same("third", third, wanted, LEN);
    wanted[META] = 0x01;
    same("second", second, wanted, LEN);
    expect("none", scion_step_all(&at, 100, packets, 0), SCION_DONE, 0);
}

static void headers(void) {
    uint8_t packet[LEN], wanted[LEN], mac[6];
    unhex(PACKET("00", RIGHT), packet);
    unhex(ADDRESSES "010020000100b39600000064" NEXT_HOP "a1a2a3a4a5a6" OWN_HOP RIGHT, wanted);
    expect("header", scion_header_check(packet + META, LEN - META), SCION_DONE, LEN - META);
    expect("no header", scion_header_check(packet + META, 35), SCION_SHORT, 0);
    expect("no byte", scion_header_check(empty, 0), SCION_SHORT, 0);
    expect("way back", scion_header_reverse(packet + META, LEN - META), SCION_DONE, LEN - META);
    same("way back", packet, wanted, LEN);
    expect("no way back", scion_header_reverse(packet + META, 35), SCION_SHORT, 0);
    same("no way back", packet, wanted, LEN);
    const uint8_t *key = (const uint8_t *)"k";
    expect("mac", scion_hop_mac(key, 1, 0xb396, 100, 63, 2, 0, mac), SCION_DONE, 0);
    unhex(RIGHT, wanted);
    same("mac", mac, wanted, 6);
    expect("no mac", scion_hop_mac(empty, 0, 0xb396, 100, 63, 2, 0, mac), SCION_BAD_FIELD, 0);
    same("no mac", mac, wanted, 6);
}

typedef scion_text call(const uint8_t *request, size_t request_len, uint8_t *room,
                        size_t room_len);

/* The answer to a request, into a room that is a byte too small, and into one that fits. */
static void answers(const char *what, call *asked, const char *request, const char *wanted) {
    uint8_t room[512] = {0}, zeros[512] = {0};
    size_t len = strlen(wanted);
    scion_text given = asked((const uint8_t *)request, strlen(request), room, len - 1);
    scion_answer small = {given.status, (uint16_t)given.len};
    expect(what, small, SCION_ROOM_TOO_SMALL, len);
    same(what, room, zeros, sizeof room);
    given = asked((const uint8_t *)request, strlen(request), room, sizeof room);
    scion_answer written = {given.status, (uint16_t)given.len};
    expect(what, written, SCION_WRITTEN, len);
    same(what, room, (const uint8_t *)wanted, len);
    same(what, room + len, zeros, sizeof room - len);
}

#define BAD_REQUEST "{\"code\":150,\"name\":\"BadRequest\"}"

/* The path over three ASes in a row. Its segment expires at half second 45200. */
static void paths(void) {
    const char *request =
        "{\"src\":\"1-ff00:0:112\",\"dst\":\"1-ff00:0:110\",\"limit\":4,\"now\":1000,"
        "\"segments\":[{\"beta0\":4660,\"entries\":["
        "{\"egress\":1,\"exp\":63,\"ia\":\"1-ff00:0:110\",\"ingress\":0,\"mac\":\"aef522c41890\"},"
        "{\"egress\":2,\"exp\":63,\"ia\":\"1-ff00:0:111\",\"ingress\":1,\"mac\":\"39b948f8a321\"},"
        "{\"egress\":0,\"exp\":63,\"ia\":\"1-ff00:0:112\",\"ingress\":1,\"mac\":\"ad8a52e6ab61\"}],"
        "\"kind\":\"intra\",\"timestamp\":1000}]}";
    const char *wanted =
        "{\"option\":0,\"paths\":[{\"expiry\":45200,"
        "\"header\":\"0000300000008578000003e8003f00010000ad8a52e6ab61"
        "003f0001000239b948f8a321003f00000001aef522c41890\",\"kind\":\"U\",\"pieces\":["
        "{\"along\":false,\"from\":0,\"segment\":0,\"to\":2}],"
        "\"walk\":\"1-ff00:0:112#0,1 1-ff00:0:111#2,1 1-ff00:0:110#1,0\"}]}";
    answers("path", scion_paths, request, wanted);
    answers("no request", scion_paths, "", BAD_REQUEST);
}

/* A path of a segment with two entries, which expires at half second 43400, at this second. */
#define VERIFY(now) \
    "{\"src\":\"1-ff00:0:111\",\"dst\":\"1-ff00:0:110\",\"now\":" now "," \
    "\"header\":\"000020000000b39600000064" OWN_HOP OTHER NEXT_HOP "a1a2a3a4a5a6\"," \
    "\"pieces\":[{\"segment\":0,\"from\":0,\"to\":1,\"along\":false}]," \
    "\"segments\":[{\"beta0\":4660,\"kind\":\"intra\",\"timestamp\":100,\"entries\":[" \
    "{\"ia\":\"1-ff00:0:110\",\"ingress\":0,\"egress\":1,\"exp\":63,\"mac\":\"a1a2a3a4a5a6\"}," \
    "{\"ia\":\"1-ff00:0:111\",\"ingress\":2,\"egress\":0,\"exp\":63,\"mac\":\"" OTHER "\"}]}]}"

static void verdicts(void) {
    answers("verified", scion_verify, VERIFY("100"),
            "{\"expiry\":43400,\"kind\":\"U\",\"walk\":\"1-ff00:0:111#0,2 1-ff00:0:110#1,0\"}");
    answers("late", scion_verify, VERIFY("21701"), "{\"code\":79,\"name\":\"Expired\"}");
}

/* Calls whose packet shares a byte with the router's parts, and one with a null pointer. */
static void shared_by_a_step(void) {
    uint8_t bytes[LEN + 1], before[LEN + 1];
    union {
        scion_interface table[1];
        uint8_t bytes[LEN];
    } both;
    unhex(PACKET("00", RIGHT), bytes);
    bytes[LEN] = 'k';
    memcpy(before, bytes, sizeof bytes);
    scion_router at = router(0x0001ff0000000111, "k", "", &parent, 1);
    expect("null", scion_step(&at, 100, SCION_FROM_HOST, 0, NULL, 0), SCION_BAD_CALL, 0);
    at.key = bytes + LEN;
    expect("key apart", scion_step(&at, 100, SCION_FROM_HOST, 0, bytes, LEN), SCION_TO_LINK, 2);
    memcpy(bytes, before, sizeof bytes);
    expect("key", scion_step(&at, 100, SCION_FROM_HOST, 0, bytes, LEN + 1), SCION_BAD_CALL, 0);
    same("key", bytes, before, sizeof bytes);
    at.key = NULL;
    expect("no key", scion_step(&at, 100, SCION_FROM_HOST, 0, bytes, LEN), SCION_BAD_CALL, 0);
    both.table[0] = parent;
    at = router(0x0001ff0000000111, "k", "", both.table, 1);
    expect("table", scion_step(&at, 100, SCION_FROM_HOST, 0, both.bytes, LEN), SCION_BAD_CALL, 0);
}

/* Two packets of one call that share a byte, and a packet within the records. */
static void shared_by_packets(void) {
    uint8_t bytes[2 * LEN - 1] = {0}, zeros[2 * LEN - 1] = {0};
    scion_packet packets[2] = {{bytes, LEN, 0, {0, 0}, SCION_FROM_HOST},
                               {bytes + LEN - 1, LEN, 0, {0, 0}, SCION_FROM_HOST}};
    scion_router at = router(0x0001ff0000000111, "k", "", &parent, 1);
    expect("two packets", scion_step_all(&at, 100, packets, 2), SCION_BAD_CALL, 0);
    expect("one packet", scion_step_all(&at, 100, packets, 1), SCION_DONE, 0);
    same("two packets", bytes, zeros, sizeof bytes);
    packets[1].bytes = (uint8_t *)&packets[0];
    packets[1].len = 1;
    expect("a record", scion_step_all(&at, 100, packets, 2), SCION_BAD_CALL, 0);
}

/* An authenticator within its key, and answers within their requests: by a byte at either end, and
 * whole. */
static void shared_by_answers(void) {
    uint8_t bytes[64] = "{}", before[64] = "{}";
    expect("mac", scion_hop_mac(bytes, 6, 0, 0, 0, 0, 0, bytes + 5), SCION_BAD_CALL, 0);
    call *const calls[2] = {scion_paths, scion_verify};
    const size_t places[3][2] = {{0, 31}, {31, 0}, {0, 0}};
    for (unsigned i = 0; i < 6; i++) {
        const size_t *place = places[i / 2];
        scion_text given = calls[i % 2](bytes + place[0], 32, bytes + place[1], 32);
        scion_answer refused = {given.status, (uint16_t)given.len};
        expect("room", refused, SCION_BAD_ROOM, 0);
        same("room", bytes, before, sizeof bytes);
    }
    scion_text given = scion_paths(bytes, 32, bytes + 32, 32);
    scion_answer apart = {given.status, (uint16_t)given.len};
    expect("room apart", apart, SCION_WRITTEN, strlen(BAD_REQUEST));
    same("room apart", bytes + 32, (const uint8_t *)BAD_REQUEST, strlen(BAD_REQUEST));
}

int main(void) {
    turns();
    ends();
    delivered();
    hostile();
    many();
    headers();
    paths();
    verdicts();
    shared_by_a_step();
    shared_by_packets();
    shared_by_answers();
    printf("%u answers, %u wrong\n", count, wrong);
    return wrong != 0;
}
