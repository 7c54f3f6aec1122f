/* SPDX-License-Identifier: Apache-2.0 */
/* Whole packets: the turns of cases/packets/turns.tsv, which it reads from standard input, and one
 * packet by hand, written, read and answered.
 *
 * What is expected stands in the cases, or is said by the layout of packets, never by what the
 * library answered. The status is 1 where an answer differs. */
#include "scion_checked.h"
#include <stdio.h>
#include <stdlib.h>
#include <string.h>

static unsigned count, wrong;

static size_t unhex(const char *text, uint8_t *to) {
    size_t len = 0;
    for (unsigned byte; sscanf(text + 2 * len, "%2x", &byte) == 1; len++) to[len] = (uint8_t)byte;
    return len;
}

static void expect(const char *what, scion_answer given, size_t code, size_t number) {
    count++;
    if (given.code == code && given.number == number) return;
    printf("%s: %u %u, and not %u %u\n", what, given.code, given.number, (unsigned)code,
           (unsigned)number);
    wrong++;
}

static scion_answer pair(uint16_t code, uint16_t number) {
    scion_answer both = {code, number};
    return both;
}

static void same(const char *what, const uint8_t *bytes, const uint8_t *wanted, size_t len) {
    count++;
    if (memcmp(bytes, wanted, len) == 0) return;
    printf("%s: other bytes\n", what);
    wrong++;
}

/* ---- the cases: fields of a line, which tabs part */

enum { NAME, IA, ROUTER, NOW, ARRIVAL, FROM, KEY, PREVIOUS, TABLE, DATA, CODE, NUMBER, CHANGES };
enum { FIELDS = CHANGES + 1, LINE = 4096, INTERFACES = 8 };

/* Parts a line at its tabs and cuts off its end; the status is 1 if it has not these fields. */
static void part(char *line, char **fields) {
    size_t found = 0;
    fields[found++] = line;
    for (; *line && *line != '\n'; line++)
        if (*line == '\t') {
            *line = 0;
            if (found < FIELDS) fields[found++] = line + 1;
        }
    *line = 0;
    if (found < FIELDS) exit(1);
}

/* The interfaces, `number,kind,router,up` and blanks between them. */
static size_t table(const char *text, scion_interface *rows) {
    size_t len = 0;
    for (unsigned number, kind, router, up; len < INTERFACES; len++) {
        if (sscanf(text, "%u,%u,%u,%u", &number, &kind, &router, &up) != 4) break;
        scion_interface row = {(uint16_t)number, (uint8_t)kind, (uint8_t)router, (uint8_t)up};
        rows[len] = row;
        while (*text && *text != ' ') text++;
        if (*text) text++;
    }
    return len;
}

/* Changes the bytes at these places: `place=byte`, in hexadecimal, and blanks between them. */
static void change(const char *text, uint8_t *bytes) {
    for (unsigned place, byte; sscanf(text, "%u=%2x", &place, &byte) == 2;) {
        bytes[place] = (uint8_t)byte;
        while (*text && *text != ' ') text++;
        if (*text) text++;
    }
}

static void turn(char *line) {
    char *fields[FIELDS];
    scion_interface rows[INTERFACES];
    uint8_t key[64], previous[64], packet[LINE / 2], wanted[LINE / 2];
    part(line, fields);
    scion_router at = {strtoull(fields[IA], NULL, 16),
                       key,
                       unhex(fields[KEY], key),
                       previous,
                       unhex(fields[PREVIOUS], previous),
                       rows,
                       table(fields[TABLE], rows),
                       (uint8_t)atoi(fields[ROUTER])};
    size_t len = unhex(fields[DATA], packet);
    memcpy(wanted, packet, len);
    change(fields[CHANGES], wanted);
    uint32_t now = (uint32_t)strtoull(fields[NOW], NULL, 10);
    scion_answer given = scion_whole_packet_step(&at, now, (uint8_t)atoi(fields[ARRIVAL]),
                                                 (uint16_t)atoi(fields[FROM]), packet, len);
    expect(fields[NAME], given, (size_t)atoi(fields[CODE]), (size_t)atoi(fields[NUMBER]));
    same(fields[NAME], packet, wanted, len);
}

/* ---- a packet by hand, whose hosts have addresses of different lengths */

#define PATH "000020000000b39600000064003f00020000110e4c1d3dad003f00000001a1a2a3a4a5a6"
#define WAY_BACK "010020000100b39600000064003f00000001a1a2a3a4a5a6003f00020000110e4c1d3dad"
#define FRONT "0b8abcde11150003010312340001ff00000001100001ff0000000111"
#define FRONT_BACK "0b8abcde11150003013012340001ff00000001110001ff0000000110"
#define IPV4 "0a000001"
#define IPV6 "20010db8000000000000000000000001"
#define PAYLOAD "686921"
enum { HEADERS = 84, LEN = HEADERS + 3, PATH_LEN = 36 };

static scion_packet_info by_hand(void) {
    scion_packet_info info = {0x0001ff0000000110, 0x0001ff0000000111, 0xabcde, 0x1234, 0, 0xb8, 17,
                              {0, 4, {0}}, {0, 16, {0}}};
    unhex(IPV4, info.destination_host.bytes);
    unhex(IPV6, info.source_host.bytes);
    return info;
}

static void written_and_read(void) {
    uint8_t path[PATH_LEN], payload[3], room[LEN + 1] = {0}, wanted[LEN + 1] = {0};
    scion_packet_info info = by_hand(), read;
    memset(&read, 0xff, sizeof read);
    unhex(PATH, path);
    unhex(PAYLOAD, payload);
    unhex(FRONT IPV4 IPV6 PATH PAYLOAD, wanted);
    expect("too small", scion_whole_packet_write(&info, path, PATH_LEN, payload, 3, room, LEN - 1),
           SCION_PACKET_ROOM_TOO_SMALL, 0);
    expect("written", scion_whole_packet_write(&info, path, PATH_LEN, payload, 3, room, LEN + 1),
           SCION_DONE, HEADERS);
    same("written", room, wanted, LEN + 1);
    expect("read", scion_whole_packet_read(room, LEN, &read), SCION_DONE, HEADERS);
    info.path_start = 48;
    same("read", (const uint8_t *)&read.destination, (const uint8_t *)&info.destination, 8);
    same("read", (const uint8_t *)&read.source, (const uint8_t *)&info.source, 8);
    expect("read", pair(read.reserved, read.path_start), 0x1234, 48);
    expect("read", pair(read.traffic_class, read.next_header), 0xb8, 17);
    expect("read", pair((uint16_t)(read.flow_id >> 16), (uint16_t)read.flow_id), 0xa, 0xbcde);
    same("read", (const uint8_t *)&read.destination_host, (const uint8_t *)&info.destination_host,
         sizeof(scion_host));
    same("read", (const uint8_t *)&read.source_host, (const uint8_t *)&info.source_host,
         sizeof(scion_host));
}

static void refused(void) {
    static const uint8_t large[65536] = {0};
    static uint8_t room[70000];
    uint8_t path[PATH_LEN];
    scion_packet_info info = by_hand(), flow = info, kind = info, len = info, before;
    unhex(PATH, path);
    flow.flow_id = 1 << 20;
    kind.source_host.kind = 4;
    len.destination_host.len = 20;
    const scion_packet_info *others[3] = {&flow, &kind, &len};
    for (unsigned i = 0; i < 3; i++)
        expect("field", scion_whole_packet_write(others[i], path, 3, large, 65536, room, 0),
               SCION_BAD_FIELD, 0);
    expect("path", scion_whole_packet_write(&info, path, 35, large, 65536, room, 0),
           SCION_BAD_HEADER, SCION_SHORT);
    expect("payload", scion_whole_packet_write(&info, path, PATH_LEN, large, 65536, room, 0),
           SCION_PAYLOAD_TOO_LARGE, 0);
    expect("largest", scion_whole_packet_write(&info, path, PATH_LEN, large, 65535, room, 70000),
           SCION_DONE, HEADERS);
    memcpy(&before, &info, sizeof info);
    expect("read", scion_whole_packet_read(room, HEADERS + 65534, &info), SCION_BAD_PAYLOAD_LENGTH,
           0);
    same("read", (const uint8_t *)&info, (const uint8_t *)&before, sizeof info);
    expect("shared", scion_whole_packet_read((uint8_t *)&info, sizeof info, &info), SCION_BAD_CALL,
           0);
}

static void answered(void) {
    uint8_t packet[LEN], before[LEN], wanted[LEN];
    unhex(FRONT IPV4 IPV6 PATH PAYLOAD, packet);
    unhex(FRONT IPV4 IPV6 PATH PAYLOAD, before);
    unhex(FRONT_BACK IPV6 IPV4 WAY_BACK PAYLOAD, wanted);
    expect("reply", scion_whole_packet_reply(packet, LEN), SCION_DONE, 0);
    same("reply", packet, wanted, LEN);
    expect("reply again", scion_whole_packet_reply(packet, LEN), SCION_DONE, 0);
    same("reply again", packet, before, LEN);
    expect("cut", scion_whole_packet_reply(packet, LEN - 1), SCION_BAD_PAYLOAD_LENGTH, 0);
    same("cut", packet, before, LEN);
}

int main(void) {
    static char line[LINE];
    unsigned lines = 0;
    for (; fgets(line, sizeof line, stdin); lines++) turn(line);
    written_and_read();
    refused();
    answered();
    printf("%u cases, %u answers, %u wrong\n", lines, count, wrong);
    return wrong != 0 || lines == 0;
}
