/* Stands between a program and the C library: writes down each call that touches a file, and lets calls fail. What the C library does
 * within itself, as printf and fgets, it does not see.
 *
 * What a program asks the system about itself, by a file below /proc, is let through: it is neither written down nor counted.
 *
 * SHIM_LOG   the file that the calls are appended to, one to a line:
 *                open RESULT MADE PATH
 *                read|pread|write|pwrite|fsync|fdatasync|ftruncate FD COUNT OFFSET RESULT HEX
 *            MADE is `made` if the file was not there before, else a dash. HEX are the bytes written, and a dash where there are none.
 * SHIM_PLAN  one plan or several, separated by `;`. Each counts the calls of its own name from 1; the name `any` counts all of the
 *            calls above together.
 *                CALL N errno NUMBER    the N-th call is not made, and fails with this number
 *                CALL N short BYTES     it moves only so many bytes, and answers so
 *                CALL N kill BYTES      it moves only so many bytes, and the process is killed; an open, a sync or a cut is not made then,
 *                                       and not written down
 */
#define _GNU_SOURCE
/* Headers that guard these functions would define them. */
#undef _FORTIFY_SOURCE
#include <errno.h>
#include <fcntl.h>
#include <signal.h>
#include <stdarg.h>
#include <stdio.h>
#include <stdlib.h>
#include <string.h>
#include <sys/syscall.h>
#include <sys/types.h>
#include <unistd.h>

struct plan {
    char call[16], action[8];
    long turn, number, seen;
};

static int log_fd = -1, asking_fd = -1, plan_count;
static struct plan plans[32];

/* Calls of the shim's own go to the system, and not through the functions below. */
__attribute__((constructor)) static void begin(void) {
    const char *path = getenv("SHIM_LOG"), *text = getenv("SHIM_PLAN");
    if (path) {
        int fd = (int)syscall(SYS_openat, AT_FDCWD, path, O_WRONLY | O_CREAT | O_APPEND, 0666);
        log_fd = fcntl(fd, F_DUPFD_CLOEXEC, 200);
        close(fd);
    }
    while (text) {
        struct plan *plan = &plans[plan_count++];
        if (plan_count > 32 || sscanf(text, "%15s %ld %7s %ld", plan->call, &plan->turn, plan->action, &plan->number) != 4) {
            _exit(98);
        }
        text = strchr(text, ';');
        text = text ? text + 1 : NULL;
    }
}

/* The plan for this call, if there is one. Every plan counts the calls of its name. */
static const struct plan *planned(const char *name) {
    const struct plan *found = NULL;
    for (int i = 0; i < plan_count; i++) {
        struct plan *plan = &plans[i];
        int counts = strcmp(plan->call, name) == 0 || strcmp(plan->call, "any") == 0;
        if (counts && ++plan->seen == plan->turn && !found) {
            found = plan;
        }
    }
    return found;
}

static int fails(const struct plan *plan) {
    if (plan && strcmp(plan->action, "errno") == 0) {
        errno = (int)plan->number;
        return 1;
    }
    return 0;
}

static void end_if_killed(const struct plan *plan) {
    if (plan && strcmp(plan->action, "kill") == 0) {
        kill(getpid(), SIGKILL);
        for (;;) {
            pause();
        }
    }
}

static void note(const char *line, size_t count) {
    if (log_fd >= 0 && syscall(SYS_write, log_fd, line, count) != (long)count) {
        _exit(97);
    }
}

static void note_call(const char *name, int fd, size_t count, long offset, long result, const unsigned char *bytes) {
    static char line[300000];
    int saved = errno;
    int at = snprintf(line, 200, "%s %d %zu %ld %ld ", name, fd, count, offset, result);
    if (!bytes || result <= 0) {
        line[at++] = '-';
    } else {
        for (long i = 0; i < result && i < 140000; i++) {
            line[at++] = "0123456789abcdef"[bytes[i] >> 4];
            line[at++] = "0123456789abcdef"[bytes[i] & 15];
        }
    }
    line[at++] = '\n';
    note(line, (size_t)at);
    errno = saved;
}

/* Where a write began that moved so many bytes; 0 in a stream, which has no places. */
static off_t place_before(int fd, long result) {
    int saved = errno;
    off_t end = lseek(fd, 0, SEEK_CUR);
    errno = saved;
    return end < 0 || result < 0 ? 0 : end - result;
}

/* A call that moves bytes: to the program, or from it. */
static ssize_t moved(const char *name, long number, int fd, void *to, const void *from, size_t count, off_t offset) {
    if (fd >= 0 && fd == asking_fd) {
        return syscall(number, fd, from ? from : to, count, offset);
    }
    const struct plan *plan = planned(name);
    long result = -1;
    if (!fails(plan)) {
        size_t most = plan && (size_t)plan->number < count ? (size_t)plan->number : count;
        result = most || !plan ? syscall(number, fd, from ? from : to, most, offset) : 0;
    }
    if (number == SYS_write) {
        offset = place_before(fd, result);
    }
    note_call(name, fd, count, offset, result, from);
    end_if_killed(plan);
    return result;
}

/* A call that moves no bytes: a sync, or a cut to a length. */
static int changed(const char *name, long number, int fd, off_t length) {
    const struct plan *plan = planned(name);
    long result = -1;
    end_if_killed(plan);
    if (!fails(plan)) {
        result = syscall(number, fd, length);
    }
    note_call(name, fd, 0, length, result, NULL);
    return (int)result;
}

static int opened(const char *path, int flags, mode_t mode) {
    if (strncmp(path, "/proc/", 6) == 0) {
        asking_fd = (int)syscall(SYS_openat, AT_FDCWD, path, flags, mode);
        return asking_fd;
    }
    char line[4200];
    const struct plan *plan = planned("open");
    int saved = errno;
    int is_new = (flags & O_CREAT) && access(path, F_OK) != 0;
    long result = -1;
    errno = saved;
    end_if_killed(plan);
    if (!fails(plan)) {
        result = syscall(SYS_openat, AT_FDCWD, path, flags, mode);
    }
    saved = errno;
    const char *made = is_new && result >= 0 ? "made" : "-";
    note(line, (size_t)snprintf(line, sizeof line, "open %ld %s %.4096s\n", result, made, path));
    errno = saved;
    return (int)result;
}

#define OPEN(NAME)                               \
    int NAME(const char *path, int flags, ...) { \
        va_list rest;                            \
        va_start(rest, flags);                   \
        mode_t mode = va_arg(rest, mode_t);      \
        va_end(rest);                            \
        return opened(path, flags, mode);        \
    }
OPEN(open)
OPEN(open64)

int close(int fd) {
    if (fd == asking_fd) {
        asking_fd = -1;
    }
    return (int)syscall(SYS_close, fd);
}

ssize_t read(int fd, void *bytes, size_t count) {
    return moved("read", SYS_read, fd, bytes, NULL, count, 0);
}

ssize_t pread(int fd, void *bytes, size_t count, off_t offset) {
    return moved("pread", SYS_pread64, fd, bytes, NULL, count, offset);
}

ssize_t pread64(int fd, void *bytes, size_t count, off64_t offset) {
    return moved("pread", SYS_pread64, fd, bytes, NULL, count, offset);
}

ssize_t write(int fd, const void *bytes, size_t count) {
    return moved("write", SYS_write, fd, NULL, bytes, count, 0);
}

ssize_t pwrite(int fd, const void *bytes, size_t count, off_t offset) {
    return moved("pwrite", SYS_pwrite64, fd, NULL, bytes, count, offset);
}

ssize_t pwrite64(int fd, const void *bytes, size_t count, off64_t offset) {
    return moved("pwrite", SYS_pwrite64, fd, NULL, bytes, count, offset);
}

int fsync(int fd) {
    return changed("fsync", SYS_fsync, fd, 0);
}

int fdatasync(int fd) {
    return changed("fdatasync", SYS_fdatasync, fd, 0);
}

int ftruncate(int fd, off_t length) {
    return changed("ftruncate", SYS_ftruncate, fd, length);
}

int ftruncate64(int fd, off64_t length) {
    return changed("ftruncate", SYS_ftruncate, fd, length);
}
