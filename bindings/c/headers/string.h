/* What the programs here take of <string.h>, for a compiler that has no headers. */
#include <stddef.h>
int memcmp(const void *a, const void *b, size_t len);
void *memcpy(void *to, const void *from, size_t len);
void *memset(void *to, int byte, size_t len);
size_t strlen(const char *text);
