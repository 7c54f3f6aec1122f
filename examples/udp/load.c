/* SPDX-License-Identifier: Apache-2.0 */
/* Packets a second through a program that answers each datagram by one.
 *
 *     load echo PORT PACKETS          answers this many datagrams by themselves
 *     load send FROM TO AT PACKETS    sends the datagram on standard input this many times
 *
 * `send` sends from the port FROM to the port TO, and waits for what comes at the port AT, so that
 * at most 64 packets are on their way. It prints the packets and the nanoseconds that they took.
 * All ports are of the loopback address, and each command ends after 60 seconds. */
#include <arpa/inet.h>
#include <stdint.h>
#include <stdio.h>
#include <stdlib.h>
#include <string.h>
#include <sys/socket.h>
#include <time.h>
#include <unistd.h>

enum { LARGEST = 65536, AT_ONCE = 64, SECONDS = 60 };

static unsigned char packet[LARGEST], answer[LARGEST];

static void stop(const char *why) {
    fprintf(stderr, "load: %s\n", why);
    exit(1);
}

static struct sockaddr_in loopback(const char *port) {
    struct sockaddr_in address;
    memset(&address, 0, sizeof address);
    address.sin_family = AF_INET;
    address.sin_port = htons((uint16_t)atoi(port));
    address.sin_addr.s_addr = htonl(INADDR_LOOPBACK);
    return address;
}

static int bound(const char *port) {
    struct sockaddr_in own = loopback(port);
    int on = socket(AF_INET, SOCK_DGRAM, 0);
    if (on < 0 || bind(on, (struct sockaddr *)&own, sizeof own)) stop("the port is not free");
    return on;
}

static void give(int on, const struct sockaddr_in *to, size_t len) {
    if (sendto(on, packet, len, 0, (const struct sockaddr *)to, sizeof *to) != (ssize_t)len)
        stop("a datagram was not sent");
}

static void echo(const char *port, long packets) {
    int on = bound(port);
    printf("ready\n");
    fflush(stdout);
    for (; packets > 0; packets--) {
        struct sockaddr_in from;
        socklen_t size = sizeof from;
        ssize_t len = recvfrom(on, packet, sizeof packet, 0, (struct sockaddr *)&from, &size);
        if (len < 0) stop("no datagram was received");
        give(on, &from, (size_t)len);
    }
}

static int64_t now(void) {
    struct timespec time;
    clock_gettime(CLOCK_MONOTONIC, &time);
    return (int64_t)time.tv_sec * 1000000000 + time.tv_nsec;
}

static void load(char **words, long packets) {
    int on = bound(words[0]), at = strcmp(words[0], words[2]) ? bound(words[2]) : on;
    struct sockaddr_in to = loopback(words[1]);
    size_t len = fread(packet, 1, sizeof packet, stdin);
    int64_t begun = now();
    for (long sent = 0, received = 0; received < packets; received++) {
        for (; sent < packets && sent - received < AT_ONCE; sent++) give(on, &to, len);
        if (recv(at, answer, sizeof answer, 0) != (ssize_t)len) stop("another datagram came");
    }
    printf("%ld %lld\n", packets, (long long)(now() - begun));
}

int main(int count, char **words) {
    alarm(SECONDS);
    if (count == 4 && !strcmp(words[1], "echo")) echo(words[2], atol(words[3]));
    else if (count == 6 && !strcmp(words[1], "send")) load(words + 2, atol(words[5]));
    else stop("echo PORT PACKETS, or send FROM TO AT PACKETS");
    return 0;
}
