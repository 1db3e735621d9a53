#ifndef LIBC_STRING_H
#define LIBC_STRING_H
#include <stddef.h>
size_t strlen(const char *a);
size_t strspn(const char *a, const char *set);
int strcmp(const char *a, const char *b);
char *strchr(const char *a, int c);
char *strrchr(const char *a, int c);
char *strerror(int number);
void *memchr(const void *a, int c, size_t n);
#endif
