/* What the programs here take of <unistd.h>, for a compiler that has no headers. */
enum { STDIN_FILENO = 0 };
unsigned alarm(unsigned seconds);
