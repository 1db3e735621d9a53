#ifndef LIBC_ERRNO_H
#define LIBC_ERRNO_H
int *__errno_location(void);
#define errno (*__errno_location())
#define ENOENT 2
#define EINTR 4
#define EINVAL 22
#endif
