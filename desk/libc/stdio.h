#ifndef LIBC_STDIO_H
#define LIBC_STDIO_H
#include <stddef.h>
#include <sys/types.h>
typedef struct libc_file FILE;
extern FILE *stdin, *stdout, *stderr;
int printf(const char *format, ...) __attribute__((format(printf, 1, 2)));
int fprintf(FILE *file, const char *format, ...) __attribute__((format(printf, 2, 3)));
int snprintf(char *to, size_t n, const char *format, ...) __attribute__((format(printf, 3, 4)));
int sscanf(const char *from, const char *format, ...);
int fputs(const char *text, FILE *file);
int fputc(int c, FILE *file);
int putchar(int c);
int fclose(FILE *file);
size_t fread(void *to, size_t size, size_t n, FILE *file);
FILE *fopen(const char *name, const char *mode);
int setvbuf(FILE *file, char *buffer, int mode, size_t n);
#define _IOLBF 1
int fflush(FILE *file);
int ferror(FILE *file);
ssize_t getline(char **line, size_t *room, FILE *file);
int rename(const char *from, const char *to);
void perror(const char *name);
#endif
