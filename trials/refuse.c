/* Counts the calls of a program that can fail, and refuses some of them. To be preloaded:
 *
 *     cc -O2 -shared -fPIC -o refuse.so refuse.c
 *     LD_PRELOAD=./refuse.so TRIAL_COUNTS=counts TRIAL_CALL=growth TRIAL_FIRST=7 PROGRAM ..
 *
 * TRIAL_COUNTS   a file of sizeof(struct counts) bytes, in which the counts are kept as the program runs
 * TRIAL_CALL     which calls are refused: growth, open, read, write (to the output), tell (to the error stream)
 * TRIAL_FIRST    the number of the first call that is refused, from 1; none is, where it is 0 or not given
 * TRIAL_LENGTH   how many calls in a row are, 1 where it is not given
 * TRIAL_HOW      short (one byte is read or written), stall (the call is made after a while), or the number of an
 *                error, which is what a call that is not of memory is refused with (5 where it is not given)
 * TRIAL_ENDINGS  a file to which a struct ending is added for each run that is split off: none of the growths from
 *                TRIAL_FIRST on, TRIAL_LENGTH of them, is refused then, but at each of them a run splits off in which
 *                it is; alone, with the next one where that run ends with status 0, and with all behind it where there
 *                are any. The run itself ends behind the last of them, with status 0.
 *
 * A growth is a call that asks for memory that isn't there yet; it is refused with no memory. */
#define _GNU_SOURCE
#include <errno.h>
#include <fcntl.h>
#include <malloc.h>
#include <signal.h>
#include <stdarg.h>
#include <stdbool.h>
#include <stdint.h>
#include <stdlib.h>
#include <string.h>
#include <sys/mman.h>
#include <sys/prctl.h>
#include <sys/stat.h>
#include <sys/syscall.h>
#include <sys/uio.h>
#include <sys/wait.h>
#include <time.h>
#include <unistd.h>

enum call { GROWTH, OPEN, READ, WRITE, TELL, CALLS };

static const char *const NAMES[CALLS] = {"growth", "open", "read", "write", "tell"};
static const int SHORT = -1, STALL = -2;
static const uint64_t ALL = UINT64_C(1) << 63;
static const unsigned SPLIT_SECONDS = 100;
static const int64_t STALL_NANOSECONDS = 50 * 1000 * 1000;

/* Times are of the processor, in nanoseconds. */
struct counts {
    uint64_t made[CALLS];
    uint64_t refused;
    uint64_t growths_at_write;   /* the growths when the output was first written to */
    int64_t latest_growth;       /* the time of the latest growth before that, at first that of the start */
    int64_t longest_pause;       /* the longest time without a growth, up to then */
    uint64_t growths_at_pause;   /* the growths when it began */
};

/* How a run ended that was split off. */
struct ending {
    uint64_t first, length; /* the growths that were refused */
    uint64_t growths;       /* those that it asked for */
    int64_t status;         /* the status, or below 0 the signal that ended it */
    uint64_t output, told;  /* how much stands on the output and on the error stream */
    char line[32];          /* the first of what was told */
};

static struct counts unshared;
static struct counts *counts = &unshared;
/* For runs that are split off: their counts, their output and error stream, and the file of their endings. */
static struct counts *split_counts;
static int split_output, split_told, endings = -1;
static bool is_ready;
static enum call refused_call = CALLS;
static uint64_t first_refused, refused_length = 1;
static int how = EIO;

extern void *__libc_malloc(size_t);
extern void *__libc_calloc(size_t, size_t);
extern void *__libc_realloc(void *, size_t);
extern void *__libc_memalign(size_t, size_t);

static int64_t processor_time(void) {
    struct timespec now;
    clock_gettime(CLOCK_PROCESS_CPUTIME_ID, &now);
    return now.tv_sec * INT64_C(1000000000) + now.tv_nsec;
}

static void prepare_splits(const char *path) {
    split_counts = mmap(NULL, sizeof *split_counts, PROT_READ | PROT_WRITE, MAP_SHARED | MAP_ANONYMOUS, -1, 0);
    split_output = memfd_create("output", MFD_CLOEXEC);
    split_told = memfd_create("told", MFD_CLOEXEC);
    endings = (int)syscall(SYS_openat, AT_FDCWD, path, O_WRONLY | O_APPEND | O_CLOEXEC, 0);
}

__attribute__((constructor)) static void prepare(void) {
    const char *path = getenv("TRIAL_COUNTS"), *call = getenv("TRIAL_CALL"), *first = getenv("TRIAL_FIRST");
    const char *length = getenv("TRIAL_LENGTH"), *given = getenv("TRIAL_HOW"), *split = getenv("TRIAL_ENDINGS");
    if (path) {
        long file = syscall(SYS_openat, AT_FDCWD, path, O_RDWR | O_CLOEXEC, 0);
        void *shared = mmap(NULL, sizeof *counts, PROT_READ | PROT_WRITE, MAP_SHARED, (int)file, 0);
        if (shared != MAP_FAILED)
            counts = shared;
        syscall(SYS_close, file);
    }
    for (int name = 0; call && name < CALLS; name++)
        if (!strcmp(call, NAMES[name]))
            refused_call = (enum call)name;
    if (first)
        first_refused = strtoull(first, NULL, 10);
    if (length)
        refused_length = strtoull(length, NULL, 10);
    if (given)
        how = !strcmp(given, "short") ? SHORT : !strcmp(given, "stall") ? STALL : atoi(given);
    if (split)
        prepare_splits(split);
    counts->latest_growth = processor_time();
    is_ready = true;
}

/* Notes a call, and tells whether it is one to be refused. */
static bool is_refused(enum call call) {
    if (!is_ready)
        return false;
    uint64_t number = ++counts->made[call];
    bool refused = call == refused_call && first_refused && number >= first_refused &&
                   number - first_refused < refused_length;
    counts->refused += refused;
    return refused;
}

/* The growths up to now stand before a pause that ends now, if it is the longest. */
static void note_pause(uint64_t growths) {
    int64_t now = processor_time();
    if (now - counts->latest_growth > counts->longest_pause) {
        counts->longest_pause = now - counts->latest_growth;
        counts->growths_at_pause = growths;
    }
    counts->latest_growth = now;
}

static uint64_t size_of(int stream) {
    struct stat found;
    return fstat(stream, &found) ? 0 : (uint64_t)found.st_size;
}

static void empty(int stream) {
    if (ftruncate(stream, 0) || lseek(stream, 0, SEEK_SET))
        abort();
}

static void become_split(uint64_t first, uint64_t length) {
    prctl(PR_SET_PDEATHSIG, SIGKILL);
    alarm(SPLIT_SECONDS);
    dup2(split_output, STDOUT_FILENO);
    dup2(split_told, STDERR_FILENO);
    *split_counts = *counts;
    counts = split_counts;
    endings = -1;
    first_refused = first;
    refused_length = length;
}

/* Splits off a run in which a number of growths from this one on is refused. True in that run; where it ended, false. */
static bool splits(uint64_t first, uint64_t length, struct ending *ending) {
    empty(split_output);
    empty(split_told);
    pid_t process = fork();
    if (process == 0) {
        become_split(first, length);
        return true;
    }
    int status = 0;
    if (process < 0 || waitpid(process, &status, 0) != process)
        abort();
    *ending = (struct ending){first, length, .growths = split_counts->made[GROWTH]};
    ending->status = WIFEXITED(status) ? WEXITSTATUS(status) : -WTERMSIG(status);
    ending->output = size_of(split_output);
    ending->told = size_of(split_told);
    syscall(SYS_pread64, split_told, ending->line, sizeof ending->line, 0);
    if (syscall(SYS_write, endings, ending, sizeof *ending) != sizeof *ending)
        abort();
    return false;
}

/* Splits off the runs in which this growth is refused; true in these. */
static bool splits_at(uint64_t growth) {
    struct ending alone, more;
    if (splits(growth, 1, &alone))
        return true;
    if (alone.status == 0 && splits(growth, 2, &more))
        return true;
    if (alone.growths > growth && splits(growth, ALL, &more))
        return true;
    if (growth - first_refused + 1 == refused_length)
        _exit(0);
    return false;
}

static bool refuses_growth(void) {
    if (is_ready && !counts->made[WRITE])
        note_pause(counts->made[GROWTH]);
    bool refused = is_refused(GROWTH);
    if (refused && endings >= 0)
        refused = splits_at(counts->made[GROWTH]);
    if (refused)
        errno = ENOMEM;
    return refused;
}

void *malloc(size_t size) { return refuses_growth() ? NULL : __libc_malloc(size); }

void *calloc(size_t count, size_t size) { return refuses_growth() ? NULL : __libc_calloc(count, size); }

void *realloc(void *old, size_t size) {
    bool grows = !old || size > malloc_usable_size(old);
    return grows && refuses_growth() ? NULL : __libc_realloc(old, size);
}

void *memalign(size_t alignment, size_t size) { return refuses_growth() ? NULL : __libc_memalign(alignment, size); }

void *aligned_alloc(size_t alignment, size_t size) { return memalign(alignment, size); }

int posix_memalign(void **result, size_t alignment, size_t size) {
    void *block = memalign(alignment, size);
    if (!block)
        return ENOMEM;
    *result = block;
    return 0;
}

/* What is done with a call that is to be refused: whether it is made after all, and of how many bytes. */
static bool is_made(size_t *size) {
    if (how == SHORT) {
        *size = *size ? 1 : 0;
        return true;
    }
    if (how == STALL) {
        struct timespec pause = {0, STALL_NANOSECONDS};
        nanosleep(&pause, NULL);
        return true;
    }
    errno = how;
    return false;
}

static int open_at(int folder, const char *path, int flags, mode_t mode) {
    size_t none = 0;
    if (is_refused(OPEN) && !is_made(&none))
        return -1;
    return (int)syscall(SYS_openat, folder, path, flags, mode);
}

static mode_t mode_of(int flags, va_list rest) { return flags & (O_CREAT | O_TMPFILE) ? va_arg(rest, mode_t) : 0; }

#define OPENS(name)                                                                                                    \
    int name(const char *path, int flags, ...) {                                                                       \
        va_list rest;                                                                                                  \
        va_start(rest, flags);                                                                                         \
        mode_t mode = mode_of(flags, rest);                                                                            \
        va_end(rest);                                                                                                  \
        return open_at(AT_FDCWD, path, flags, mode);                                                                   \
    }

#define OPENS_AT(name)                                                                                                 \
    int name(int folder, const char *path, int flags, ...) {                                                           \
        va_list rest;                                                                                                  \
        va_start(rest, flags);                                                                                         \
        mode_t mode = mode_of(flags, rest);                                                                            \
        va_end(rest);                                                                                                  \
        return open_at(folder, path, flags, mode);                                                                     \
    }

OPENS(open)
OPENS(open64)
OPENS_AT(openat)
OPENS_AT(openat64)

ssize_t read(int stream, void *bytes, size_t size) {
    if (is_refused(READ) && !is_made(&size))
        return -1;
    return syscall(SYS_read, stream, bytes, size);
}

ssize_t pread(int stream, void *bytes, size_t size, off_t place) {
    if (is_refused(READ) && !is_made(&size))
        return -1;
    return syscall(SYS_pread64, stream, bytes, size, place);
}

ssize_t readv(int stream, const struct iovec *parts, int count) {
    size_t size = count ? parts[0].iov_len : 0;
    if (!is_refused(READ))
        return syscall(SYS_readv, stream, parts, count);
    return is_made(&size) ? syscall(SYS_read, stream, parts[0].iov_base, size) : -1;
}

/* Whether a write is refused; the first one to the output ends the phase in which growths are looked for. */
static bool refuses_write(int stream) {
    if (is_ready && stream == STDOUT_FILENO && !counts->made[WRITE]) {
        note_pause(counts->made[GROWTH]);
        counts->growths_at_write = counts->made[GROWTH];
    }
    return stream == STDOUT_FILENO ? is_refused(WRITE) : stream == STDERR_FILENO && is_refused(TELL);
}

ssize_t write(int stream, const void *bytes, size_t size) {
    if (refuses_write(stream) && !is_made(&size))
        return -1;
    return syscall(SYS_write, stream, bytes, size);
}

ssize_t writev(int stream, const struct iovec *parts, int count) {
    size_t size = count ? parts[0].iov_len : 0;
    if (!refuses_write(stream))
        return syscall(SYS_writev, stream, parts, count);
    return is_made(&size) ? syscall(SYS_write, stream, parts[0].iov_base, size) : -1;
}
