/* Loaded before the C library (LD_PRELOAD), this lets calls of a program fail, and gives and takes the bytes of its standard streams in
 * pieces; tests/preloaded.py compiles it and runs programs with it. From the environment:
 *   REFUSE_AT    the number of the allocation that is refused, from 1; none is where it is left out
 *   REFUSE_ON    where it is there, every allocation after that one is refused too
 *   FAIL_READ    the number of the read of standard input that fails, from 1; none does where it is left out
 *   FAIL_WRITE   the same of a write to standard output
 *   READ_MOST    the most bytes that a read of standard input gives: a number, or some with spaces between them, whose turns come
 *                over and over; any are where it is left out
 *   WRITE_MOST   the same of those that a write to standard output takes
 *   TELL         a descriptor that is open, to which is written at the end how many allocations there were, how many of them were
 *                refused, and how many reads and writes there were
 * What the dynamic linker allocates before this file is set up isn't counted. */
#include <errno.h>
#include <stddef.h>
#include <stdio.h>
#include <stdlib.h>
#include <sys/syscall.h>
#include <unistd.h>

static unsigned long number_in(const char *name) {
    const char *text = getenv(name);
    return text ? strtoul(text, NULL, 10) : 0;
}

/* ---- allocations */

/* The allocator of the GNU C library, under the names that stay its own. */
extern void *__libc_malloc(size_t size);
extern void *__libc_calloc(size_t count, size_t size);
extern void *__libc_realloc(void *block, size_t size);
extern void *__libc_memalign(size_t boundary, size_t size);

static unsigned long first, seen, refused;
static int is_counting, stays;

static int is_refused(void) {
    if (!is_counting) return 0;
    seen++;
    if (!first || seen < first || (seen > first && !stays)) return 0;
    refused++;
    errno = ENOMEM;
    return 1;
}

void *malloc(size_t size) { return is_refused() ? NULL : __libc_malloc(size); }

void *calloc(size_t count, size_t size) { return is_refused() ? NULL : __libc_calloc(count, size); }

void *realloc(void *block, size_t size) { return is_refused() ? NULL : __libc_realloc(block, size); }

void *memalign(size_t boundary, size_t size) { return is_refused() ? NULL : __libc_memalign(boundary, size); }

void *aligned_alloc(size_t boundary, size_t size) { return memalign(boundary, size); }

int posix_memalign(void **block, size_t boundary, size_t size) {
    void *found = memalign(boundary, size);
    if (found) *block = found;
    return found ? 0 : ENOMEM;
}

/* ---- reads of standard input, and writes to standard output */

/* The calls of a stream so far, the number of the one that fails, and the lengths of pieces, with that whose turn is next. */
struct stream {
    unsigned long calls, fails;
    const char *lengths, *next;
};

static struct stream input, output;

static struct stream stream_of(const char *fails, const char *lengths) {
    struct stream stream = {0, number_in(fails), getenv(lengths), ""};
    return stream;
}

static int is_failing(struct stream *stream) {
    if (++stream->calls != stream->fails) return 0;
    errno = EIO;
    return 1;
}

/* How many of so many bytes the next piece has. */
static size_t piece(struct stream *stream, size_t count) {
    char *rest;
    unsigned long most;
    if (!stream->lengths) return count;
    if (!*stream->next) stream->next = stream->lengths;
    most = strtoul(stream->next, &rest, 10);
    stream->next = rest;
    return most && most < count ? most : count;
}

ssize_t read(int source, void *bytes, size_t count) {
    if (source != STDIN_FILENO) return syscall(SYS_read, source, bytes, count);
    return is_failing(&input) ? -1 : syscall(SYS_read, source, bytes, piece(&input, count));
}

ssize_t write(int sink, const void *bytes, size_t count) {
    if (sink != STDOUT_FILENO) return syscall(SYS_write, sink, bytes, count);
    return is_failing(&output) ? -1 : syscall(SYS_write, sink, bytes, piece(&output, count));
}

/* ---- before and after the program */

__attribute__((constructor)) static void begin(void) {
    first = number_in("REFUSE_AT");
    stays = getenv("REFUSE_ON") != NULL;
    input = stream_of("FAIL_READ", "READ_MOST");
    output = stream_of("FAIL_WRITE", "WRITE_MOST");
    is_counting = 1;
}

__attribute__((destructor)) static void end(void) {
    char text[128];
    int length = snprintf(text, sizeof text, "%lu %lu %lu %lu\n", seen, refused, input.calls, output.calls);
    is_counting = 0;
    if (getenv("TELL") && write((int)number_in("TELL"), text, (size_t)length) != length) _exit(99);
}
