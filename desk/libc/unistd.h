#ifndef LIBC_UNISTD_H
#define LIBC_UNISTD_H
#include <stddef.h>
#include <sys/types.h>
ssize_t read(int fd, void *to, size_t n);
ssize_t write(int fd, const void *from, size_t n);
int close(int fd);
int fsync(int fd);
int fchown(int fd, uid_t owner, gid_t group);
int unlink(const char *name);
int isatty(int fd);
#endif
