/*
 * Preloaded into a program that is fuzzed. The program is loaded once and forked for each order,
 * since loading takes longer than a run. In a run the reads and writes are cut short or fail as
 * the order says: the C library may do so at any call, and a file as input or output never does.
 *
 * The variable FUZZ_FAULT names a fault, to see that the fuzz target finds it.
 */
#define _GNU_SOURCE /* for memmem */

#include "fuzz_io.h"

#include <errno.h>
#include <stdbool.h>
#include <stdlib.h>
#include <string.h>
#include <sys/resource.h>
#include <sys/syscall.h>
#include <sys/wait.h>
#include <unistd.h>

/* A run that takes more processor time or prints more ends with a signal. */
enum { SECONDS = 5, PRINTED = 1 << 24 };

static struct fuzz_order order;

static void limit(void)
{
    struct rlimit time = {SECONDS, SECONDS};
    struct rlimit printed = {PRINTED, PRINTED};
    struct rlimit core = {0, 0};
    if (setrlimit(RLIMIT_CPU, &time) != 0 || setrlimit(RLIMIT_FSIZE, &printed) != 0 ||
        setrlimit(RLIMIT_CORE, &core) != 0) {
        _exit(1);
    }
}

/* Before the program's own start: only a fork returns, and goes on to it. */
__attribute__((constructor)) static void serve(void)
{
    struct fuzz_order next;
    while (read(FUZZ_CONTROL, &next, sizeof next) == sizeof next) {
        int status;
        pid_t child = fork();
        if (child == 0) {
            close(FUZZ_CONTROL);
            limit();
            order = next;
            return;
        }
        if (child < 0 || waitpid(child, &status, 0) != child ||
            write(FUZZ_CONTROL, &status, sizeof status) != sizeof status) {
            break;
        }
    }
    _exit(0);
}

static bool has_fault(const char *name)
{
    const char *fault = getenv("FUZZ_FAULT");
    return fault != NULL && strcmp(fault, name) == 0;
}

/* How many of the bytes are written; all of them unless there is a fault. */
static size_t kept_of(const char *bytes, size_t count)
{
    if (has_fault("program_signal") && memmem(bytes, count, "! 6", 3) != NULL) {
        abort();
    }
    if (has_fault("program_status") && memmem(bytes, count, "! 2", 3) != NULL) {
        _exit(3);
    }
    if (has_fault("program_loses_byte") && memmem(bytes, count, "reach 4", 7) != NULL) {
        return count - 1;
    }
    return count;
}

/* How many bytes a call may take. */
static size_t allowed(const struct fuzz_limits *limits, size_t count)
{
    size_t most = count < limits->most ? count : limits->most;
    return most < limits->until ? most : limits->until;
}

static ssize_t failed(void)
{
    errno = EIO;
    return -1;
}

ssize_t read(int file, void *bytes, size_t count)
{
    static bool ended;
    if (file != STDIN_FILENO) {
        return syscall(SYS_read, file, bytes, count);
    }
    size_t most = allowed(&order.input, count);
    if (most == 0 && count > 0) {
        return failed();
    }
    if (ended) {
        return 0;
    }
    ssize_t got = syscall(SYS_read, file, bytes, most);
    order.input.until -= got > 0 ? (uint32_t)got : 0;
    ended = has_fault("program_ends_at_short_read") && got == 17;
    return got;
}

ssize_t write(int file, const void *bytes, size_t count)
{
    if (file != STDOUT_FILENO) {
        return syscall(SYS_write, file, bytes, count);
    }
    size_t most = allowed(&order.output, count);
    if (most == 0 && count > 0) {
        return failed();
    }
    size_t kept = kept_of(bytes, most);
    ssize_t written = syscall(SYS_write, file, bytes, kept);
    if (written < 0) {
        return written;
    }
    order.output.until -= (uint32_t)most;
    return written + (ssize_t)(most - kept);
}
