#ifndef PLAIN_STDIO_H
#define PLAIN_STDIO_H
typedef struct file FILE;
extern FILE *stdout, *stderr;
#define EOF (-1)
int getchar(void);
int printf(const char *format, ...);
int fprintf(FILE *to, const char *format, ...);
#endif
