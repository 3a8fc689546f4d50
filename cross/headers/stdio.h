/* What examples/ prints with, for a compiler that comes without headers. */
#ifndef CROSS_STDIO_H
#define CROSS_STDIO_H
int printf(const char *format, ...) __attribute__((format(printf, 1, 2)));
int puts(const char *line);
#endif
