/* Refuses one allocation of a program, for LD_PRELOAD.
 *
 * The calls of malloc, calloc, realloc, reallocarray, aligned_alloc and posix_memalign are counted together. The count
 * begins with the first call that the program itself makes, so that what the loader and the C library allocate before
 * `main` is left alone. Call number REFUSE_NTH (counted from 1) is refused: it answers NULL with errno ENOMEM, and
 * posix_memalign answers ENOMEM. Then the file that REFUSE_NOTE names is made, so that its presence tells whether a call
 * was refused. With no REFUSE_NTH, or 0, nothing is refused.
 *
 * Each write to standard output adds a line to the file that GROWTH_LOG names, if it names one: how many bytes the write
 * took, and how many calls had been counted by then.
 */
#define _GNU_SOURCE
#include <dlfcn.h>
#include <errno.h>
#include <fcntl.h>
#include <link.h>
#include <stdint.h>
#include <stdio.h>
#include <stdlib.h>
#include <string.h>
#include <sys/syscall.h>
#include <unistd.h>

static void *(*real_malloc)(size_t);
static void *(*real_calloc)(size_t, size_t);
static void *(*real_realloc)(void *, size_t);
static void *(*real_aligned_alloc)(size_t, size_t);
static int (*real_posix_memalign)(void **, size_t, size_t);
static void (*real_free)(void *);

/* What is allocated while the functions above are looked up, since the look-up may allocate. */
static _Alignas(16) unsigned char early[8192];
static size_t early_used;
static int is_resolving;

static int is_early(const void *block) {
    return (uintptr_t)block - (uintptr_t)early < sizeof early;
}

static void *early_block(size_t size) {
    size_t whole = (size + 15) & ~(size_t)15;
    if (whole < size || whole > sizeof early - early_used) return NULL;
    void *block = early + early_used;
    early_used += whole;
    return block;
}

static void find(void *pointer, const char *name) {
    void *found = dlsym(RTLD_NEXT, name);
    if (!found) _exit(127);
    memcpy(pointer, &found, sizeof found);
}

/* Whether the functions can be called; not while they are looked up. */
static int is_ready(void) {
    if (is_resolving) return 0;
    if (real_free) return 1;
    is_resolving = 1;
    find(&real_malloc, "malloc");
    find(&real_calloc, "calloc");
    find(&real_realloc, "realloc");
    find(&real_aligned_alloc, "aligned_alloc");
    find(&real_posix_memalign, "posix_memalign");
    find(&real_free, "free");
    is_resolving = 0;
    return 1;
}

/* Whether an address lies in the program, which is the first object that is visited. */
static int holds_address(struct dl_phdr_info *object, size_t size, void *data) {
    uintptr_t address = *(uintptr_t *)data;
    (void)size;
    *(uintptr_t *)data = 0;
    for (int i = 0; i < object->dlpi_phnum; i++) {
        const ElfW(Phdr) *part = &object->dlpi_phdr[i];
        uintptr_t start = object->dlpi_addr + part->p_vaddr;
        if (part->p_type == PT_LOAD && address >= start && address - start < part->p_memsz) *(uintptr_t *)data = 1;
    }
    return 1;
}

static int is_of_program(void *caller) {
    uintptr_t data = (uintptr_t)caller;
    dl_iterate_phdr(holds_address, &data);
    return data == 1;
}

static void note_refusal(void) {
    const char *path = getenv("REFUSE_NOTE");
    if (!path) return;
    int file = open(path, O_WRONLY | O_CREAT | O_CLOEXEC, 0644);
    if (file >= 0) close(file);
}

/* How many calls have been counted. */
static unsigned long counted;

/* Counts a call, and tells whether it is the one to refuse. */
static int is_refused(void *caller) {
    static int has_begun;
    static unsigned long wanted;
    if (!has_begun) {
        if (!is_of_program(caller)) return 0;
        const char *text = getenv("REFUSE_NTH");
        wanted = text ? strtoul(text, NULL, 10) : 0;
        has_begun = 1;
    }
    counted++;
    if (counted != wanted) return 0;
    note_refusal();
    errno = ENOMEM;
    return 1;
}

void *malloc(size_t size) {
    if (!is_ready()) return early_block(size);
    if (is_refused(__builtin_return_address(0))) return NULL;
    return real_malloc(size);
}

void *calloc(size_t count, size_t size) {
    if (!is_ready()) return size && count > sizeof early / size ? NULL : early_block(count * size);
    if (is_refused(__builtin_return_address(0))) return NULL;
    return real_calloc(count, size);
}

/* A block of `size` bytes for one that was allocated early. */
static void *moved(void *block, size_t size) {
    void *fresh = real_malloc(size);
    size_t held = early + sizeof early - (unsigned char *)block;
    if (fresh) memcpy(fresh, block, size < held ? size : held);
    return fresh;
}

static void *resized(void *block, size_t size, void *caller) {
    if (!is_ready()) return block ? NULL : early_block(size);
    if (is_refused(caller)) return NULL;
    return is_early(block) ? moved(block, size) : real_realloc(block, size);
}

void *realloc(void *block, size_t size) {
    return resized(block, size, __builtin_return_address(0));
}

void *reallocarray(void *block, size_t count, size_t size) {
    size_t whole;
    if (__builtin_mul_overflow(count, size, &whole)) {
        errno = ENOMEM;
        return NULL;
    }
    return resized(block, whole, __builtin_return_address(0));
}

void *aligned_alloc(size_t alignment, size_t size) {
    if (!is_ready()) return NULL;
    if (is_refused(__builtin_return_address(0))) return NULL;
    return real_aligned_alloc(alignment, size);
}

int posix_memalign(void **block, size_t alignment, size_t size) {
    int saved = errno;
    if (!is_ready()) return ENOMEM;
    if (is_refused(__builtin_return_address(0))) {
        errno = saved;
        return ENOMEM;
    }
    return real_posix_memalign(block, alignment, size);
}

void free(void *block) {
    if (is_early(block) || !is_ready()) return;
    real_free(block);
}

static void log_write(ssize_t taken) {
    const char *path = getenv("GROWTH_LOG");
    if (!path) return;
    int file = open(path, O_WRONLY | O_CREAT | O_APPEND | O_CLOEXEC, 0644);
    if (file < 0) return;
    char line[64];
    int size = snprintf(line, sizeof line, "%zd %lu\n", taken, counted);
    syscall(SYS_write, file, line, (size_t)size);
    close(file);
}

ssize_t write(int file, const void *bytes, size_t size) {
    ssize_t taken = syscall(SYS_write, file, bytes, size);
    int saved = errno;
    if (file == STDOUT_FILENO) log_write(taken);
    errno = saved;
    return taken;
}
