/* SPDX-License-Identifier: Apache-2.0 */
/* One router of a network as a process, which forwards datagrams on the loopback address.
 *
 *     router PORT NAME IA NUMBER KEY NOW PACKETS SECONDS HOST PEER..
 *
 * It is an example of a host, and not proved: scion_whole_packet_step is, to which it gives each
 * packet. It binds 127.0.0.1 alone, and ends after so many packets or seconds. If standard input is
 * a socket, that is bound to PORT already, so that nobody else gets the port. IA and KEY are
 * hexadecimal; NOW is the second at which all packets come, where another host would read its
 * clock. HOST is the port of the hosts of the AS. A peer is one of
 *
 *     link:NUMBER:KIND:ROUTER:PORT   an interface of the AS, the router that owns it, and the port
 *                                    of the router at the far end of its link
 *     router:NUMBER:PORT             another router of the AS
 *
 * A datagram is a whole packet, as between border routers. The port that it came from says how it
 * came, never what is in it: from the far end of a link, from a router of the AS, or else from a
 * host. So two routers have at most one link between them. Links, routers and hosts have the
 * address 127.0.0.1: what comes from another one is left out, whatever its port. */
#include <arpa/inet.h>
#include <scion.h>
#include <stdio.h>
#include <stdlib.h>
#include <string.h>
#include <sys/socket.h>
#include <unistd.h>

enum { LARGEST = 65536, MOST = 256, KEY_LEN = 64 };

static uint8_t key[KEY_LEN], packet[LARGEST];
static scion_interface interfaces[MOST];
static uint16_t beyond[MOST];  /* the port at the far end of each interface */
static uint16_t routers[MOST]; /* the port of each other router of the AS, or 0 */
static scion_router self = {0, key, 0, key, 0, interfaces, 0, 0};

static void stop(const char *why) {
    fprintf(stderr, "router: %s\n", why);
    exit(1);
}

/* The number of a hexadecimal digit, or -1. */
static int digit(char sign) {
    if (sign >= '0' && sign <= '9') return sign - '0';
    if (sign >= 'a' && sign <= 'f') return sign - 'a' + 10;
    if (sign >= 'A' && sign <= 'F') return sign - 'A' + 10;
    return -1;
}

/* The length of the key that this text gives, two digits for each byte. */
static size_t read_key(const char *text) {
    size_t digits = strlen(text), len = digits / 2;
    if (!len || len > sizeof key || digits % 2) stop("a key has 1 to 64 bytes of two digits each");
    for (size_t i = 0; i < len; i++) {
        int high = digit(text[2 * i]), low = digit(text[2 * i + 1]);
        if (high < 0 || low < 0) stop("a key has a sign that is no hexadecimal digit");
        key[i] = (uint8_t)(high * 16 + low);
    }
    return len;
}

/* Takes a peer of the command line, in one of its two forms. */
static void add_peer(const char *text) {
    unsigned number, kind, owner, port;
    if (sscanf(text, "link:%u:%u:%u:%u", &number, &kind, &owner, &port) == 4) {
        if (self.interfaces_len == MOST) stop("too many interfaces");
        scion_interface one = {(uint16_t)number, (uint8_t)kind, (uint8_t)owner, 1};
        beyond[self.interfaces_len] = (uint16_t)port;
        interfaces[self.interfaces_len++] = one;
    } else if (sscanf(text, "router:%u:%u", &number, &port) == 2 && number < MOST) {
        routers[number] = (uint16_t)port;
    } else {
        stop("no such peer");
    }
}

/* The link of this router whose far end has this port, or -1. */
static int link_of(uint16_t port) {
    for (size_t i = 0; i < self.interfaces_len; i++)
        if (interfaces[i].router == self.router && beyond[i] == port) return (int)i;
    return -1;
}

/* How a packet from this port came; for a link also by which interface. */
static uint8_t way_in(uint16_t port, uint16_t *interface) {
    int link = link_of(port);
    *interface = link < 0 ? 0 : interfaces[link].number;
    if (link >= 0) return SCION_OVER_LINK;
    for (size_t i = 0; i < MOST; i++)
        if (routers[i] == port) return SCION_INSIDE;
    return SCION_FROM_HOST;
}

/* The port to which a packet goes that was answered so, or 0 if it was refused. */
static uint16_t way_out(scion_answer answer, uint16_t host) {
    if (answer.code == SCION_DELIVER) return host;
    if (answer.code == SCION_TO_ROUTER) return routers[answer.number];
    if (answer.code != SCION_TO_LINK) return 0;
    for (size_t i = 0; i < self.interfaces_len; i++)
        if (interfaces[i].number == answer.number) return beyond[i];
    return 0;
}

/* A line about a turn, which is written before the packet goes on, so that lines are in order; and
 * before it, if the packet goes on, a line with its bytes. A router with the name `-` writes
 * none. */
static void tell(const char *name, uint8_t arrival, uint16_t interface, scion_answer answer,
                 size_t len) {
    if (name[0] == '-' && !name[1]) return;
    if (answer.code <= SCION_DELIVER) {
        printf("sent ");
        for (size_t i = 0; i < len; i++) printf("%02x", packet[i]);
        printf("\n");
    }
    printf("%s router %u: ", name, self.router);
    if (arrival == SCION_OVER_LINK) printf("by link %u, ", interface);
    if (arrival == SCION_INSIDE) printf("from inside, ");
    if (arrival == SCION_FROM_HOST) printf("from a host, ");
    if (answer.code == SCION_TO_LINK) printf("to link %u\n", answer.number);
    else if (answer.code == SCION_TO_ROUTER) printf("to router %u\n", answer.number);
    else if (answer.code == SCION_DELIVER) printf("delivered\n");
    else if (answer.number) printf("refused %u %u\n", answer.code, answer.number);
    else printf("refused %u\n", answer.code);
    fflush(stdout);
}

static struct sockaddr_in loopback(uint16_t port) {
    struct sockaddr_in address;
    memset(&address, 0, sizeof address);
    address.sin_family = AF_INET;
    address.sin_port = htons(port);
    address.sin_addr.s_addr = htonl(INADDR_LOOPBACK);
    return address;
}

/* One datagram: a turn of the router on it, and on its way. Returns how many packets it was. */
static int forward(int on, const char *name, uint32_t now, uint16_t host) {
    struct sockaddr_in from = loopback(0);
    socklen_t size = sizeof from;
    ssize_t len = recvfrom(on, packet, sizeof packet, 0, (struct sockaddr *)&from, &size);
    if (len < 0) stop("no datagram was received");
    if (from.sin_family != AF_INET || from.sin_addr.s_addr != htonl(INADDR_LOOPBACK)) return 0;
    uint16_t interface;
    uint8_t arrival = way_in(ntohs(from.sin_port), &interface);
    scion_answer answer =
        scion_whole_packet_step(&self, now, arrival, interface, packet, (size_t)len);
    tell(name, arrival, interface, answer, (size_t)len);
    uint16_t port = way_out(answer, host);
    struct sockaddr_in to = loopback(port);
    if (port && sendto(on, packet, (size_t)len, 0, (struct sockaddr *)&to, sizeof to) != len)
        stop("a datagram was not sent");
    return 1;
}

/* The socket of the router: standard input, or a new one at this port. */
static int socket_at(uint16_t port) {
    struct sockaddr_in own = loopback(port), given;
    socklen_t size = sizeof given;
    if (!getsockname(STDIN_FILENO, (struct sockaddr *)&given, &size)) return STDIN_FILENO;
    int on = socket(AF_INET, SOCK_DGRAM, 0);
    if (on < 0 || bind(on, (struct sockaddr *)&own, sizeof own)) stop("the port is not free");
    return on;
}

int main(int count, char **words) {
    if (count < 10) stop("router PORT NAME IA NUMBER KEY NOW PACKETS SECONDS HOST PEER..");
    self.ia = strtoull(words[3], NULL, 16);
    self.router = (uint8_t)atoi(words[4]);
    self.key_len = read_key(words[5]);
    uint32_t now = (uint32_t)strtoull(words[6], NULL, 10);
    for (int i = 10; i < count; i++) add_peer(words[i]);
    alarm((unsigned)atoi(words[8]));
    int on = socket_at((uint16_t)atoi(words[1]));
    printf("ready\n");
    fflush(stdout);
    for (int left = atoi(words[7]); left > 0;)
        left -= forward(on, words[2], now, (uint16_t)atoi(words[9]));
    return 0;
}
