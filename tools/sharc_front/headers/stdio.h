#ifndef SHARC_FRONT_STDIO_H
#define SHARC_FRONT_STDIO_H
#include <stddef.h>
typedef struct __sharc_file FILE;
typedef long ssize_t;
extern FILE *stdin, *stdout, *stderr;
#define stdin stdin
#define stdout stdout
#define stderr stderr
#define EOF (-1)
#define BUFSIZ 8192
#define _IOLBF 1
#define _IONBF 2
#define fflush(file) 0
/* to these streams alone: for another one there is no such function */
#define fprintf(file, ...) __sharc_fprintf_##file(__VA_ARGS__)
#define __sharc_fprintf_stdout(...) printf(__VA_ARGS__)
#define sprintf(s, ...) snprintf(s, 65536, __VA_ARGS__)
#define setbuf(file, buffer) ((void) 0)
#define fputs(text, file) puts(text)
#define fputc(c, file) putchar(c)
#define putc(c, file) putchar(c)
static inline int puts(const char *text) { return 0; }
static inline int putchar(int c) { return c; }
static inline int perror(const char *text) { return 0; }
#define setvbuf(file, buffer, mode, size) ((void)0)
/* what sprintf and snprintf are made of: each writes from s[at] on, where there is room, and gives the next place */
static inline int __sharc_put(char *s, size_t room, int at, int c)
{
    if (at + 1 < room)
        s[at] = c;
    return at + 1;
}
static inline int __sharc_put_text(char *s, size_t room, int at, const char *text)
{
    int n = 0;
    while (text[n] != 0) {
        if (at + n + 1 < room)
            s[at + n] = text[n];
        n++;
    }
    return at + n;
}
static inline int __sharc_put_number(char *s, size_t room, int at, long value, int width, int zeros)
{
    long power = 1;
    int digits = 1, n = at;
    while (value / power / 10 != 0) {
        power = power * 10;
        digits++;
    }
    if (value < 0)
        digits++;
    for (; !zeros && digits < width; digits++)
        n = __sharc_put(s, room, n, ' ');
    if (value < 0)
        n = __sharc_put(s, room, n, '-');
    for (; digits < width; digits++)
        n = __sharc_put(s, room, n, '0');
    while (power > 0) {
        n = __sharc_put(s, room, n, '0' + (value < 0 ? -(value / power % 10) : value / power % 10));
        power = power / 10;
    }
    return n;
}
static inline int __sharc_end(char *s, size_t room, int at)
{
    if (room > 0)
        s[at < room ? at : room - 1] = 0;
    return at;
}
#define flockfile(file) ((void)0)
#define funlockfile(file) ((void)0)
#endif
