/* Loaded into a program by LD_PRELOAD, this refuses one of its calls: REFUSE says which kind (memory, read, write or say),
 * AT its number, from 1, and ERROR the number of the error, EIO where there is none. "write" is a write to standard output,
 * "say" one to standard error. Where COUNTS names a file, how many calls of each kind there were is added to it when the
 * program ends. SHORTEN names a kind of which each call moves MOST bytes at the most. CUT names a file that is cut to CUT_TO
 * bytes before read number AT. */
#define _GNU_SOURCE
#include <errno.h>
#include <fcntl.h>
#include <stdio.h>
#include <stdlib.h>
#include <string.h>
#include <sys/syscall.h>
#include <unistd.h>

void *__libc_malloc(size_t size);
void *__libc_realloc(void *block, size_t size);

enum kind { MEMORY, READ, WRITE, SAY, KINDS };

static const char *const names[KINDS] = {"memory", "read", "write", "say"};
static long calls[KINDS];
static int refused = KINDS;
static int shortened = KINDS;
static long number;
static long most;
static long error;
static long cut_to;
static const char *cut;
static const char *counts;

static long number_in(const char *variable, long otherwise) {
    const char *text = getenv(variable);
    return text ? strtol(text, NULL, 10) : otherwise;
}

static int kind_in(const char *variable) {
    const char *text = getenv(variable);
    int kind = 0;
    if (!text) return KINDS;
    while (kind < KINDS && strcmp(text, names[kind]) != 0) kind++;
    return kind;
}

__attribute__((constructor)) static void begin(void) {
    counts = getenv("COUNTS");
    cut = getenv("CUT");
    cut_to = number_in("CUT_TO", 0);
    refused = kind_in("REFUSE");
    number = number_in("AT", 0);
    error = number_in("ERROR", EIO);
    shortened = kind_in("SHORTEN");
    most = number_in("MOST", 0);
    memset(calls, 0, sizeof calls);
}

__attribute__((destructor)) static void end(void) {
    char line[128];
    if (!counts) return;
    int length = snprintf(line, sizeof line, "%ld %ld %ld %ld\n", calls[MEMORY], calls[READ], calls[WRITE], calls[SAY]);
    int file = (int)syscall(SYS_open, counts, O_WRONLY | O_CREAT | O_APPEND, 0644);
    if (file < 0) return;
    if (syscall(SYS_write, file, line, (size_t)length) < 0) return;
    syscall(SYS_close, file);
}

static int is_refused(enum kind kind) {
    calls[kind]++;
    return (int)kind == refused && calls[kind] == number;
}

static size_t at_most(enum kind kind, size_t size) {
    return (int)kind == shortened && size > (size_t)most ? (size_t)most : size;
}

void *malloc(size_t size) {
    if (is_refused(MEMORY)) {
        errno = ENOMEM;
        return NULL;
    }
    return __libc_malloc(size);
}

void *realloc(void *block, size_t size) {
    if (is_refused(MEMORY)) {
        errno = ENOMEM;
        return NULL;
    }
    return __libc_realloc(block, size);
}

ssize_t read(int file, void *bytes, size_t size) {
    if (is_refused(READ)) {
        errno = (int)error;
        return -1;
    }
    if (cut && calls[READ] == number && truncate(cut, cut_to) < 0) return -1;
    return syscall(SYS_read, file, bytes, at_most(READ, size));
}

ssize_t write(int file, const void *bytes, size_t size) {
    enum kind kind = file == 2 ? SAY : WRITE;
    if (file > 2) return syscall(SYS_write, file, bytes, size);
    if (is_refused(kind)) {
        errno = (int)error;
        return -1;
    }
    return syscall(SYS_write, file, bytes, at_most(kind, size));
}

ssize_t __write(int file, const void *bytes, size_t size) {
    return write(file, bytes, size);
}
