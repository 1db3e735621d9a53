#ifndef LIBC_SYS_FILE_H
#define LIBC_SYS_FILE_H
int flock(int fd, int operation);
#define LOCK_EX 2
#endif
