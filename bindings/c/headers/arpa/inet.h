/* What the programs here take of <arpa/inet.h>, for a compiler that has no headers. */
#include <stdint.h>
struct in_addr {
    uint32_t s_addr;
};
struct sockaddr_in {
    uint16_t sin_family, sin_port;
    struct in_addr sin_addr;
    uint8_t sin_zero[8];
};
enum { INADDR_LOOPBACK = 0x7f000001 };
uint32_t htonl(uint32_t number);
uint16_t htons(uint16_t number);
uint16_t ntohs(uint16_t number);
