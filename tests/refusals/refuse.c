// Stands between a program and the C library, and refuses what it asks for. It is preloaded, and counts the
// requests for memory, the reads and the writes of the program, each from 1:
//
//   REFUSE=N    the N-th request for memory finds none
//   FROM=N      the N-th and all later ones find none, with UNTIL=M those up to the M-th
//   READ=K      the K-th read fails;  WRITE=K  the K-th write fails
//   ONE_BYTE=1  each read and each write takes one byte at most
//   FAULT_LOG=F at the end of the program, F gets how much was asked for and how much was refused
//
// A program that calls refuse_memory has requests refused at random instead, but only those of one library.
#define _GNU_SOURCE
#include "../c/chance.h"
#include <errno.h>
#include <fcntl.h>
#include <link.h>
#include <stdio.h>
#include <stdlib.h>
#include <sys/syscall.h>
#include <unistd.h>

// The C library's own functions, by the names that it exports beside the public ones.
extern void *__libc_malloc(size_t size);
extern void *__libc_realloc(void *old, size_t size);
extern void *__libc_calloc(size_t count, size_t size);

static unsigned long requests, reads, writes, refused;
static unsigned long refuse, from, until, failing_read, failing_write, one_byte;
// Requests before this library was set up are the loader's, and are not counted.
static int counts;
// Where the code of the library stands, of whose requests one of so many is refused; none is where that is 0.
static uintptr_t code, code_len;
static unsigned refused_of;

static unsigned long number(const char *name) {
    const char *given = getenv(name);
    return given ? strtoul(given, NULL, 10) : 0;
}

__attribute__((constructor)) static void begin(void) {
    refuse = number("REFUSE");
    from = number("FROM");
    until = number("UNTIL");
    failing_read = number("READ");
    failing_write = number("WRITE");
    one_byte = number("ONE_BYTE");
    counts = 1;
}

__attribute__((destructor)) static void end(void) {
    char said[128];
    const char *file = getenv("FAULT_LOG");
    counts = 0;
    if (!file) return;
    int length = snprintf(said, sizeof said, "%lu %lu %lu %lu\n", requests, reads, writes, refused);
    int out = open(file, O_WRONLY | O_CREAT | O_TRUNC | O_CLOEXEC, 0600);
    syscall(SYS_write, out, said, length);
    close(out);
}

// Takes the segment of an object in which a call stands for the library's code. Whether there is one.
static int find_code(struct dl_phdr_info *object, size_t size, void *call) {
    (void)size;
    for (int i = 0; i < object->dlpi_phnum; i++) {
        code = object->dlpi_addr + object->dlpi_phdr[i].p_vaddr;
        code_len = object->dlpi_phdr[i].p_memsz;
        if (object->dlpi_phdr[i].p_type == PT_LOAD && (uintptr_t)call - code < code_len) return 1;
    }
    return 0;
}

// From now on refuses one of so many requests of the library that has that call, or none where it is 0.
void refuse_memory(void *call, unsigned one_of, uint64_t seed) {
    begin_chance(seed);
    refused_of = dl_iterate_phdr(find_code, call) ? one_of : 0;
}

// Whether to refuse the next request for memory, which comes from there.
static int is_refused(void *caller) {
    if (!counts) return 0;
    unsigned long n = ++requests;
    int is = n == refuse || (from && n >= from && (!until || n <= until))
        || (refused_of && (uintptr_t)caller - code < code_len && !below(refused_of));
    refused += is;
    if (is) errno = ENOMEM;
    return is;
}

void *malloc(size_t size) {
    return is_refused(__builtin_return_address(0)) ? NULL : __libc_malloc(size);
}

void *realloc(void *old, size_t size) {
    return is_refused(__builtin_return_address(0)) ? NULL : __libc_realloc(old, size);
}

void *calloc(size_t count, size_t size) {
    return is_refused(__builtin_return_address(0)) ? NULL : __libc_calloc(count, size);
}

// How many bytes a read or write of that length may take, or -1 where it is the one that fails.
static ssize_t let(unsigned long is_at, unsigned long fails_at, size_t length) {
    if (is_at == fails_at) {
        refused++;
        errno = EIO;
        return -1;
    }
    return one_byte && length > 1 ? 1 : (ssize_t)length;
}

ssize_t read(int file, void *into, size_t length) {
    ssize_t some = let(++reads, failing_read, length);
    return some < 0 ? some : syscall(SYS_read, file, into, some);
}

ssize_t write(int file, const void *bytes, size_t length) {
    ssize_t some = let(++writes, failing_write, length);
    return some < 0 ? some : syscall(SYS_write, file, bytes, some);
}
