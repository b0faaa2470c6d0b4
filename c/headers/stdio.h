#ifndef KIT_STDIO_H
#define KIT_STDIO_H
#include <stddef.h>
int printf(const char *, ...) __attribute__((format(printf, 1, 2)));
int getchar(void);
int snprintf(char *, size_t, const char *, ...) __attribute__((format(printf, 3, 4)));
#endif
