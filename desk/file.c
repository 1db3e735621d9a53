// Files. A register is replaced whole: written beside, flushed, renamed, the folder flushed. Wherever the program is stopped, the old
// register or the new one stands.
#include "desk.h"
#include <errno.h>
#include <fcntl.h>
#include <stdio.h>
#include <stdlib.h>
#include <string.h>
#include <sys/file.h>
#include <unistd.h>

int failed(const char *name, const char *then) {
    fprintf(stderr, "desk: %s: %s%s\n", name, strerror(errno), then);
    return FAILED;
}

int read_file(const char *name, uint8_t *to, size_t most, size_t *length) {
    FILE *in = strcmp(name, "-") ? fopen(name, "r") : stdin;
    *length = in ? fread(to, 1, most, in) : 0;
    int status = in && !ferror(in) ? DONE : failed(name, "");
    if (in && in != stdin)
        fclose(in);
    return status;
}

// A symbolic link is followed: the file that it leads to is replaced, the link stays, and all its names have one lock. A link that
// leads nowhere has no path; nor has a file that is not there, unless it is to be made.
static bool find_path(struct store *f, const char *name, bool make) {
    struct stat link;
    if (!realpath(name, f->path)) {
        if (errno != ENOENT || !make || !*name || strlen(name) >= LONGEST_PATH || !lstat(name, &link))
            return false;
        snprintf(f->path, sizeof f->path, "%s", name);
    }
    snprintf(f->beside, sizeof f->beside, "%s.new", f->path);
    snprintf(f->lock, sizeof f->lock, "%s.lock", f->path);
    return true;
}

// One writer at a time, the others wait; a lock ends with its process, however that ends. A lock file taken away meanwhile is none.
static bool take_lock(struct store *f) {
    struct stat ours, theirs;
    for (;; close(f->held)) {
        f->held = open(f->lock, O_RDWR | O_CREAT | O_NOFOLLOW | O_CLOEXEC, 0666);
        if (f->held < 0 || flock(f->held, LOCK_EX) || fstat(f->held, &ours))
            return false;
        if (!stat(f->lock, &theirs) && ours.st_ino == theirs.st_ino && ours.st_dev == theirs.st_dev)
            return true;
    }
}

// A register that is to be replaced must be a file that may be written: a rename alone would not ask. A plain file is read at once.
int take_store(struct store *f, const char *name, enum purpose purpose) {
    *f = (struct store){.held = -1};
    if (!find_path(f, name, purpose == MAKE))
        return failed(name, "");
    if (purpose != LOOK && !take_lock(f))
        return failed(f->lock, "; nothing was changed");
    int fd = open(f->path, (purpose == LOOK ? O_RDONLY : O_RDWR) | O_NONBLOCK | O_CLOEXEC);
    if (fd < 0)
        return purpose == MAKE && errno == ENOENT ? DONE : failed(name, "");
    f->there = true;
    bool plain = !fstat(fd, &f->stat) && S_ISREG(f->stat.st_mode);
    ssize_t n = read(fd, f->bytes, plain ? sizeof f->bytes : 0);
    f->length = n > 0 ? (size_t)n : 0;
    close(fd);
    return plain && n >= 0 ? DONE : failed(name, "; not a plain file that can be read");
}

void leave_store(struct store *f) {
    if (f->held >= 0)
        close(f->held);
    f->held = -1;
}

// Flushes and closes a file, however it went before; whether all was good. errno tells of the first fault.
static bool finish(int fd, bool good) {
    good = good && !fsync(fd);
    int why = errno;
    if (fd >= 0 && close(fd) && good)
        return false;
    errno = why;
    return good;
}

// The old file's mode stays, and its owner and group where the system allows it.
static bool write_beside(const struct store *f) {
    size_t n = 0;
    unlink(f->beside); // left by a writer that was killed
    int fd = open(f->beside, O_WRONLY | O_CREAT | O_EXCL | O_CLOEXEC, f->there ? 0600 : 0666);
    bool kept = f->there && fd >= 0 && !fchown(fd, f->stat.st_uid, f->stat.st_gid);
    bool good = fd >= 0 && (!f->there || !fchmod(fd, f->stat.st_mode & (kept ? 07777 : 0777)));
    for (ssize_t w; good && n < f->length; n += (size_t)w)
        good = (w = write(fd, f->bytes + n, f->length - n)) > 0;
    return finish(fd, good);
}

int replace_store(const struct store *f) {
    char folder[LONGEST_PATH];
    const char *slash = strrchr(f->path, '/');
    snprintf(folder, sizeof folder, "%.*s", slash ? (int)(slash + 1 - f->path) : 1, slash ? f->path : ".");
    if (!write_beside(f) || rename(f->beside, f->path)) {
        int status = failed(f->beside, f->there ? "; the old register stands" : "; no register was made");
        unlink(f->beside);
        return status;
    }
    int fd = open(folder, O_RDONLY | O_DIRECTORY | O_CLOEXEC);
    return finish(fd, fd >= 0) ? DONE : failed(folder, "; the new register stands, but may not outlast a power cut");
}
