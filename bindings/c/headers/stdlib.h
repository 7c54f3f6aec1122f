/* What the programs here take of <stdlib.h>, for a compiler that has no headers. */
#include <stddef.h>
int atoi(const char *text);
void exit(int status) __attribute__((noreturn));
unsigned long long strtoull(const char *text, char **end, int base);
