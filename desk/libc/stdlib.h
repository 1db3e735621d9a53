#ifndef LIBC_STDLIB_H
#define LIBC_STDLIB_H
#include <stddef.h>
void free(void *p);
char *realpath(const char *name, char *to);
#endif
