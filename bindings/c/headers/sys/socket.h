/* What the programs here take of <sys/socket.h>, for a compiler that has no headers. */
#include <stddef.h>
#include <stdint.h>
typedef long ssize_t;
typedef uint32_t socklen_t;
struct sockaddr {
    uint16_t sa_family;
    char sa_data[14];
};
enum { AF_INET = 2, SOCK_DGRAM = 2 };
int socket(int domain, int type, int protocol);
int bind(int on, const struct sockaddr *at, socklen_t size);
int getsockname(int on, struct sockaddr *at, socklen_t *size);
ssize_t recvfrom(int on, void *to, size_t len, int flags, struct sockaddr *from, socklen_t *size);
ssize_t sendto(int on, const void *bytes, size_t len, int flags, const struct sockaddr *to,
               socklen_t size);
