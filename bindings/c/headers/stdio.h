/* What the programs here take of <stdio.h>, for a compiler that has no headers. */
typedef struct scion_stream FILE;
extern FILE *stdin, *stdout, *stderr;
char *fgets(char *line, int len, FILE *stream);
int fflush(FILE *stream);
int fprintf(FILE *stream, const char *format, ...);
int printf(const char *format, ...);
int sscanf(const char *text, const char *format, ...);
