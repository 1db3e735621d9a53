#ifndef LIBC_SYS_TYPES_H
#define LIBC_SYS_TYPES_H
typedef long ssize_t;
typedef unsigned uid_t, gid_t, mode_t;
#endif
