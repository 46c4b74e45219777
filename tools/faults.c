/* Preloaded into the program by tools/check-faults: refuses memory and threads, and fails, cuts or interrupts reads and
 * writes, by the calls of the C library that the program makes.
 *
 * FAULTS has a rule for each kind of call that is tampered with, as six words: the kind (alloc, thread, read, out or
 * err), the first and the last call that fail, counted from 1, the step between those that do, the error, and the most
 * bytes that any other call moves. A read or a write that fails with error 0 moves nothing. FAULT_COUNTS names a file
 * of 80 bytes or more, which gets two numbers for each kind in this order: the calls, and those that failed.
 */
#define _GNU_SOURCE
#include <dlfcn.h>
#include <errno.h>
#include <fcntl.h>
#include <malloc.h>
#include <pthread.h>
#include <stdatomic.h>
#include <stdio.h>
#include <stdlib.h>
#include <string.h>
#include <sys/mman.h>
#include <sys/syscall.h>
#include <unistd.h>

enum { ALLOC, THREAD, READ, OUT, ERR, KINDS };

struct rule {
    unsigned long first, last, step, most;
    int error;
};

static const char *const names[KINDS] = {"alloc", "thread", "read", "out", "err"};
static struct rule rules[KINDS];
static atomic_ulong *counts;

/* In a call of the C library that allocates for itself. */
static __thread int is_inside;

extern void *__libc_malloc(size_t), *__libc_calloc(size_t, size_t), *__libc_realloc(void *, size_t);

static void read_rules(const char *text)
{
    char name[8];
    struct rule rule;
    int length;
    while (text && sscanf(text, "%7s %lu %lu %lu %d %lu%n", name, &rule.first, &rule.last, &rule.step, &rule.error, &rule.most, &length) == 6) {
        for (int kind = 0; kind < KINDS; kind++)
            if (!strcmp(name, names[kind]))
                rules[kind] = rule;
        text += length;
    }
}

__attribute__((constructor)) static void begin(void)
{
    const char *path = getenv("FAULT_COUNTS");
    int file = path ? open(path, O_RDWR | O_CLOEXEC) : -1;
    void *page = file < 0 ? MAP_FAILED : mmap(0, 4096, PROT_READ | PROT_WRITE, MAP_SHARED, file, 0);
    if (file >= 0)
        close(file);
    read_rules(getenv("FAULTS"));
    if (page != MAP_FAILED)
        counts = page;
}

/* Counts a call, and says whether it fails. */
static int fails(int kind)
{
    const struct rule *rule = &rules[kind];
    unsigned long number = counts ? atomic_fetch_add(&counts[2 * kind], 1) + 1 : 0;
    if (number < rule->first || number > rule->last || !rule->step || (number - rule->first) % rule->step)
        return 0;
    atomic_fetch_add(&counts[2 * kind + 1], 1);
    errno = rule->error;
    return 1;
}

static size_t cut(int kind, size_t size)
{
    size_t most = rules[kind].most;
    return most && most < size ? most : size;
}

static int refused(void)
{
    return !is_inside && fails(ALLOC);
}

void *malloc(size_t size)
{
    return refused() ? 0 : __libc_malloc(size);
}

void *calloc(size_t count, size_t size)
{
    return refused() ? 0 : __libc_calloc(count, size);
}

/* No C library refuses a block that becomes smaller. */
void *realloc(void *old, size_t size)
{
    int grows = malloc_usable_size(old) < size;
    return grows && refused() ? 0 : __libc_realloc(old, size);
}

int pthread_create(pthread_t *thread, const pthread_attr_t *how, void *(*work)(void *), void *given)
{
    static int (*next)(pthread_t *, const pthread_attr_t *, void *(*)(void *), void *);
    if (!next)
        next = dlsym(RTLD_NEXT, "pthread_create");
    if (fails(THREAD))
        return rules[THREAD].error;
    is_inside = 1;
    int error = next(thread, how, work, given);
    is_inside = 0;
    return error;
}

ssize_t read(int from, void *room, size_t size)
{
    if (from == 0 && fails(READ))
        return errno ? -1 : 0;
    return syscall(SYS_read, from, room, from == 0 ? cut(READ, size) : size);
}

ssize_t write(int to, const void *bytes, size_t size)
{
    int kind = to == 1 ? OUT : ERR;
    if ((to == 1 || to == 2) && fails(kind))
        return errno ? -1 : 0;
    return syscall(SYS_write, to, bytes, to == 1 || to == 2 ? cut(kind, size) : size);
}
