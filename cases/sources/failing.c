/* Loaded before the C library: one call of a kind fails, is cut or interrupted, and all calls are counted. FAILING_CALL has four words: the
   kind of call, the number of the one that fails, from 1, how, and the file in which it says what it did. */
#define _GNU_SOURCE
#include <errno.h>
#include <fcntl.h>
#include <stdio.h>
#include <stdlib.h>
#include <string.h>
#include <sys/syscall.h>
#include <unistd.h>

extern void *__libc_malloc(size_t), *__libc_realloc(void *, size_t);
enum { FILES = 256 };
static char kind[16], how[16], record[512], ended[FILES];
static long left, at[FILES], failed_file = -1, opened, vain, late, grown, asked;

__attribute__((constructor)) static void begin(void) {
    const char *words = getenv("FAILING_CALL");
    if (words && sscanf(words, "%15s %ld %15s %511s", kind, &left, how, record) != 4) left = 0;
}

static void say(const char *word, long number) {
    char line[64];
    int file = syscall(SYS_openat, AT_FDCWD, record, O_WRONLY | O_CREAT | O_APPEND, 0600);
    syscall(SYS_write, file, line, snprintf(line, sizeof line, "%s %ld\n", word, number));
    syscall(SYS_close, file);
}

/* How much memory was there at once, in bytes, as the system has it of this program alone. */
static long peak(void) {
    char text[4096] = "";
    int file = syscall(SYS_openat, AT_FDCWD, "/proc/self/status", O_RDONLY);
    if (file >= 0) syscall(SYS_read, file, text, sizeof text - 1);
    const char *line = strstr(text, "VmHWM:");
    return line ? 1024 * atol(line + strlen("VmHWM:")) : 0;
}

/* How many files were opened; how many calls were in vain: empty ones, reads after the one that found the end, and those that wait for a
   disk; how many growths there were after the first byte of standard output, how many in all, and how many bytes they asked for; and the
   peak of memory. */
__attribute__((destructor)) static void end(void) {
    if (strcmp(kind, "count") != 0) return;
    say("opened", opened); say("vain", vain); say("late", late); say("grown", grown); say("asked", asked);
    say("peak", peak());
}

int fsync(int file) { return vain++, syscall(SYS_fsync, file); }
int fdatasync(int file) { return vain++, syscall(SYS_fdatasync, file); }

/* Whether this call of a kind is the one; it says so, with the offset where it was to begin, and of each call on a file after it. */
static int is_it(const char *this, int file, long offset) {
    if (file >= 0 && failed_file >= 0) say("again", offset);
    if (left == 0 || strcmp(this, kind) != 0 || --left > 0) return 0;
    failed_file = file;
    if (strcmp(how, "rest") == 0 || strcmp(how, "bytes") == 0) left = 1;
    if (strcmp(how, "bytes") != 0 || offset == 0) say("failed", offset);
    return 1;
}

/* Whether this call of a kind gives or takes one byte alone, and the next one fails. */
static int is_short(const char *this) {
    if (left != 1 || strcmp(this, kind) != 0 || strcmp(how, "short") != 0) return 0;
    strcpy(how, "fail");
    return 1;
}

static void grow(size_t size) {
    late += at[1] > 0; grown++; asked += size;
}

static int fails(void) {
    if (strcmp(how, "interrupt") == 0) errno = EINTR;
    else if (strcmp(how, "fail") == 0) errno = EIO;
    else return 0;
    return 1;
}

void *malloc(size_t size) {
    grow(size);
    if (!is_it("malloc", -1, 0)) return __libc_malloc(size);
    errno = ENOMEM;
    return NULL;
}

void *realloc(void *block, size_t size) {
    grow(size);
    if (size == 0 || !is_it("malloc", -1, 0)) return __libc_realloc(block, size);
    errno = ENOMEM;
    return NULL;
}

int open(const char *name, int flags, ...) {
    if (is_it("open", -1, 0)) return errno = strcmp(how, "memory") == 0 ? ENOMEM : EACCES, -1;
    opened++;
    int file = syscall(SYS_openat, AT_FDCWD, name, flags, 0600);
    if (file >= 0 && file < FILES) at[file] = ended[file] = 0;
    return file;
}

ssize_t read(int file, void *block, size_t size) {
    vain += size == 0 || ended[file];
    if (is_short("read")) size = size > 0;
    else if (is_it("read", file, at[file])) {
        if (fails()) return -1;
        failed_file = -1;
        size = strcmp(how, "nothing") == 0 ? 0 : size > 0;
    }
    long count = syscall(SYS_read, file, block, size);
    if (count > 0) at[file] += count;
    ended[file] = size > 0 && count == 0;
    return count;
}

off_t lseek(int file, off_t offset, int from) {
    if (is_it("lseek", file, from == SEEK_SET ? offset : 0) && fails()) return -1;
    off_t found = syscall(SYS_lseek, file, offset, from);
    if (found >= 0) at[file] = found, ended[file] = 0;
    return found;
}

ssize_t write(int file, const void *block, size_t size) {
    vain += size == 0;
    if (file == 1 && is_short("write")) size = size > 0;
    else if (file == 1 && is_it("write", file, at[file])) {
        if (fails()) return -1;
        if (strcmp(how, "nothing") == 0) return 0;
        failed_file = -1;
        size = size > 0;
    }
    long count = syscall(SYS_write, file, block, size);
    if (file == 1 && count > 0) at[file] += count;
    return count;
}
