/* What the programs here take of <stddef.h>, for a compiler that has no headers. */
typedef __SIZE_TYPE__ size_t;
#define NULL ((void *)0)
