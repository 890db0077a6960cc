/*
 * Fuzz target of a program that reads standard input and prints: any bytes as its input. The
 * program must end normally and print what its reference prints, with status 0, or 1 if a write
 * failed.
 *
 * Variables: FUZZ_PROGRAM the program, FUZZ_PRELOAD the library of host/fuzz/fuzz_io.c,
 * FUZZ_REFERENCE the name of the reference, FUZZ_FAULT for the preloaded library.
 */
#define _GNU_SOURCE /* for memfd_create */

#include "fuzz_io.h"

#include <errno.h>
#include <spawn.h>
#include <stdbool.h>
#include <stddef.h>
#include <stdint.h>
#include <stdio.h>
#include <stdlib.h>
#include <string.h>
#include <sys/mman.h>
#include <sys/socket.h>
#include <sys/stat.h>
#include <sys/wait.h>
#include <unistd.h>

int LLVMFuzzerInitialize(int *argc, char ***argv);
int LLVMFuzzerTestOneInput(const uint8_t *data, size_t size);
size_t LLVMFuzzerMutate(uint8_t *data, size_t size, size_t room);
size_t LLVMFuzzerCustomMutator(uint8_t *data, size_t size, size_t room, unsigned int seed);

/* host/fuzz/fuzz_reference.rs */
typedef size_t reference_program(const uint8_t *input, size_t length, uint8_t *printed, size_t room);
reference_program reference_bench;
reference_program reference_orders;

enum { PRINTED = 1 << 22 };

/* The exit status of a target that cannot run. */
enum { UNABLE = 3 };

static uint8_t printed[PRINTED];
static uint8_t expected[PRINTED];

static int input_file;
static int output_file;
static int control;
static reference_program *reference;

/* What a program must do; a finding if it does not. */
static void require(bool holds, const char *what)
{
    if (!holds) {
        fprintf(stderr, "fuzz: this does not hold: %s\n", what);
        abort();
    }
}

/* What the target itself needs; no finding. */
static void need(bool done, const char *what)
{
    if (!done) {
        fprintf(stderr, "fuzz: not possible: %s (%s)\n", what, strerror(errno));
        _exit(UNABLE);
    }
}

/* ---- The program as a child process ------------------------------------------------------ */

static void start(const char *program, const char *preload)
{
    static char loaded[4096];
    static char fault[256];
    const char *named = getenv("FUZZ_FAULT");
    int ends[2];
    pid_t child;
    posix_spawn_file_actions_t files;
    snprintf(loaded, sizeof loaded, "LD_PRELOAD=%s", preload);
    snprintf(fault, sizeof fault, "FUZZ_FAULT=%s", named == NULL ? "" : named);
    char *arguments[] = {(char *)program, NULL};
    char *environment[] = {loaded, fault, NULL};
    input_file = memfd_create("input", MFD_CLOEXEC);
    output_file = memfd_create("output", MFD_CLOEXEC);
    need(input_file >= 0 && output_file >= 0, "files in memory");
    need(socketpair(AF_UNIX, SOCK_STREAM | SOCK_CLOEXEC, 0, ends) == 0, "a pair of sockets");
    control = ends[0];
    posix_spawn_file_actions_init(&files);
    posix_spawn_file_actions_adddup2(&files, input_file, STDIN_FILENO);
    posix_spawn_file_actions_adddup2(&files, output_file, STDOUT_FILENO);
    posix_spawn_file_actions_adddup2(&files, ends[1], FUZZ_CONTROL);
    need(posix_spawn(&child, program, &files, NULL, arguments, environment) == 0,
         "starting the program");
    posix_spawn_file_actions_destroy(&files);
    close(ends[1]);
}

/* Has the program run once and gives its exit status. */
static int status_of(struct fuzz_order order)
{
    int status = 0;
    ssize_t got;
    need(send(control, &order, sizeof order, MSG_NOSIGNAL) == sizeof order, "an order");
    do { /* the fuzzer's own timer may interrupt it */
        got = recv(control, &status, sizeof status, MSG_WAITALL);
    } while (got < 0 && errno == EINTR);
    need(got == sizeof status, "a run with the preloaded library");
    return status;
}

/* Runs the program on the input and gives how many bytes it printed, and its exit status. */
static size_t run(const uint8_t *data, size_t size, struct fuzz_order order, int *exit_status)
{
    struct stat output;
    need(ftruncate(input_file, 0) == 0 && ftruncate(output_file, 0) == 0, "emptying the files");
    need(pwrite(input_file, data, size, 0) == (ssize_t)size, "writing the input");
    /* The program shares the places in the files. */
    need(lseek(input_file, 0, SEEK_SET) == 0 && lseek(output_file, 0, SEEK_SET) == 0,
         "going back in the files");
    int status = status_of(order);
    if (WIFSIGNALED(status)) {
        fprintf(stderr, "fuzz: signal %d\n", WTERMSIG(status));
    }
    require(WIFEXITED(status), "the program ends without a signal");
    *exit_status = WEXITSTATUS(status);
    need(fstat(output_file, &output) == 0, "the output's length");
    require(output.st_size <= PRINTED, "the output has a bound");
    need(pread(output_file, printed, PRINTED, 0) == output.st_size, "reading the output");
    return (size_t)output.st_size;
}

/* ---- Guidance ---------------------------------------------------------------------------- */

/* The program itself has no counters. Counted as new behaviour: printed lines by their shape, a
   row of digits as one. */
enum { SHAPES = 4096 };

__attribute__((section("__libfuzzer_extra_counters"))) static uint8_t shapes[SHAPES];

static uint32_t hashed(uint32_t hash, uint8_t byte)
{
    return (hash ^ byte) * 16777619u;
}

static bool is_digit(uint8_t byte)
{
    return byte >= '0' && byte <= '9';
}

static void note_shapes(size_t count)
{
    enum { START = 0x11C9DC5 };
    uint32_t hash = START;
    for (size_t i = 0; i < count; i++) {
        uint8_t byte = printed[i];
        if (byte == '\n') {
            uint8_t *counter = &shapes[hash % SHAPES];
            *counter = (uint8_t)(*counter + (*counter < UINT8_MAX));
            hash = START;
        } else if (!is_digit(byte)) {
            hash = hashed(hash, byte);
        } else if (i == 0 || !is_digit(printed[i - 1])) {
            hash = hashed(hash, '0');
        }
    }
}

/* ---- Mutation by lines and words --------------------------------------------------------- */

static uint32_t drawn;

static size_t draw(size_t below)
{
    drawn = drawn * 1664525u + 1013904223u;
    return (drawn >> 8) % below;
}

struct span {
    size_t from;
    size_t length;
};

static bool ends_word(uint8_t byte)
{
    return byte == ' ' || byte == '\n';
}

/* The word around a byte, which may be empty. */
static struct span word_at(const uint8_t *data, size_t size, size_t at)
{
    size_t from = at;
    size_t end = at;
    while (from > 0 && !ends_word(data[from - 1])) {
        from--;
    }
    while (end < size && !ends_word(data[end])) {
        end++;
    }
    return (struct span){from, end - from};
}

/* The line around a byte, with its end. */
static struct span line_at(const uint8_t *data, size_t size, size_t at)
{
    size_t from = at;
    size_t end = at;
    while (from > 0 && data[from - 1] != '\n') {
        from--;
    }
    while (end < size && data[end] != '\n') {
        end++;
    }
    return (struct span){from, end + (end < size) - from};
}

/* Puts a copy of one span in the place of another; without room nothing changes. */
static size_t replace(uint8_t *data, size_t size, size_t room, struct span old, struct span copied)
{
    uint8_t copy[256];
    size_t behind = old.from + old.length;
    if (copied.length > sizeof copy || size - old.length + copied.length > room) {
        return size;
    }
    memcpy(copy, data + copied.from, copied.length);
    memmove(data + old.from + copied.length, data + behind, size - behind);
    memcpy(data + old.from, copy, copied.length);
    return size - old.length + copied.length;
}

/* The same point in several lines is what leads to most states, and bytes changed one by one
   seldom give it. */
size_t LLVMFuzzerCustomMutator(uint8_t *data, size_t size, size_t room, unsigned int seed)
{
    drawn = seed;
    if (size == 0 || draw(2) == 0) {
        return LLVMFuzzerMutate(data, size, room);
    }
    size_t after = size;
    for (size_t times = 1 + draw(4); times > 0 && after > 0; times--) {
        size_t at = draw(after);
        size_t other = draw(after);
        struct span line = line_at(data, after, at);
        switch (draw(4)) {
        case 0: /* a line more */
            after = replace(data, after, room, (struct span){line.from, 0},
                            line_at(data, after, other));
            break;
        case 1: /* a line less */
            after = replace(data, after, room, line, (struct span){0, 0});
            break;
        default: /* a word in the place of another */
            after = replace(data, after, room, word_at(data, after, at),
                            word_at(data, after, other));
        }
    }
    return after;
}

/* ---- The target -------------------------------------------------------------------------- */

static reference_program *reference_of(const char *name)
{
    if (name != NULL && strcmp(name, "bench") == 0) {
        return reference_bench;
    }
    if (name != NULL && strcmp(name, "orders") == 0) {
        return reference_orders;
    }
    return NULL;
}

int LLVMFuzzerInitialize(int *argc, char ***argv)
{
    (void)argc;
    (void)argv;
    const char *program = getenv("FUZZ_PROGRAM");
    const char *preload = getenv("FUZZ_PRELOAD");
    need(program != NULL && preload != NULL, "without FUZZ_PROGRAM and FUZZ_PRELOAD");
    reference = reference_of(getenv("FUZZ_REFERENCE"));
    need(reference != NULL, "without the name of a reference in FUZZ_REFERENCE");
    start(program, preload);
    return 0;
}

static size_t lesser(size_t a, size_t b)
{
    return a < b ? a : b;
}

/* One of two inputs has all its reads, or all its writes, whole; one of eight has them fail. */
static struct fuzz_limits limits_of(uint32_t hash, size_t size)
{
    static const uint32_t most[8] = {UINT32_MAX, UINT32_MAX, UINT32_MAX, UINT32_MAX, 1, 3, 17, 100};
    uint32_t until = (hash >> 3) % 8 == 0 ? (hash >> 6) % (uint32_t)(size + 1) : UINT32_MAX;
    return (struct fuzz_limits){most[hash % 8], until};
}

/* How reads and writes go follows from the input, so that a finding is the input alone. */
static struct fuzz_order order_of(const uint8_t *data, size_t size)
{
    uint32_t hash = 0;
    for (size_t i = 0; i < size; i++) {
        hash = hashed(hash, data[i]);
    }
    return (struct fuzz_order){limits_of(hash >> 8, size), limits_of(hash * 16777619u >> 8, size)};
}

/* A read that fails ends the input; a write that fails ends the program with status 1. */
int LLVMFuzzerTestOneInput(const uint8_t *data, size_t size)
{
    struct fuzz_order order = order_of(data, size);
    int status;
    size_t count = run(data, size, order, &status);
    note_shapes(count);
    size_t length = lesser(size, order.input.until);
    size_t all = reference(data, length, expected, PRINTED);
    size_t wanted = lesser(all, order.output.until);
    require(count == wanted && memcmp(printed, expected, count) == 0,
            "the program prints what the reference prints");
    require(status == (wanted < all ? 1 : 0),
            "the program ends with status 0, or with 1 if a write failed");
    return 0;
}
