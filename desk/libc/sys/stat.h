#ifndef LIBC_SYS_STAT_H
#define LIBC_SYS_STAT_H
#include <sys/types.h>
struct stat {
    unsigned long st_dev, st_ino, st_nlink;
    mode_t st_mode;
    uid_t st_uid;
    gid_t st_gid;
    unsigned st_padding;
    unsigned long st_rdev;
    long st_size, st_rest[11];
};
_Static_assert(sizeof(struct stat) == 144, "the length of struct stat on x86-64");
int stat(const char *name, struct stat *to);
int lstat(const char *name, struct stat *to);
int fstat(int fd, struct stat *to);
int fchmod(int fd, mode_t mode);
#define S_ISREG(mode) (((mode) & 0170000) == 0100000)
#endif
