/* Preloaded into a program, refuses some of the memory that it asks the C library for (glibc):
 *
 *     cc -shared -fPIC -O -o refuse.so refuse.c && LD_PRELOAD=./refuse.so REFUSE_AT=7 program
 *
 *     REFUSE_AT=K     the K-th allocation is refused, counted from 1; without it none
 *     REFUSE_LATER=1  and so is each later one
 *     REFUSE_OF=WHO   whose allocations count and are refused: `program`, those that its own code asks for, which is the rule; `library`, those that the C
 *                     library makes for itself, as for a thread; `both`
 *     REFUSE_TO=FILE  three numbers of eight bytes in FILE, which is made anew: how many counted so far, how many of these were refused, and how many blocks
 *                     were taken and not yet given back, by whose allocations count
 */
#define _GNU_SOURCE
#include <elf.h>
#include <errno.h>
#include <fcntl.h>
#include <link.h>
#include <stdatomic.h>
#include <stdint.h>
#include <stdlib.h>
#include <string.h>
#include <sys/auxv.h>
#include <sys/mman.h>
#include <unistd.h>

extern void *__libc_malloc(size_t);
extern void *__libc_calloc(size_t, size_t);
extern void *__libc_realloc(void *, size_t);
extern void *__libc_memalign(size_t, size_t);
extern void __libc_free(void *);

enum { PROGRAM = 1, LIBRARY = 2 };

/* where the program's own code lies; nothing counts before this is known */
static uintptr_t code_start, code_end;
static int whose = PROGRAM;
static int later;
static unsigned long refuse_at;

struct counts {
    atomic_ulong counted, refused;
    atomic_long held;
};

/* those of a run that tells nobody, or in the file */
static struct counts own;
static struct counts *counts = &own;

static void find_code(void) {
    const ElfW(Phdr) *head = (const ElfW(Phdr) *)getauxval(AT_PHDR);
    size_t count = getauxval(AT_PHNUM);
    uintptr_t base = 0;
    for (size_t k = 0; k < count; k++)
        if (head[k].p_type == PT_PHDR) base = (uintptr_t)head - head[k].p_vaddr;
    for (size_t k = 0; k < count; k++)
        if (head[k].p_type == PT_LOAD && (head[k].p_flags & PF_X)) {
            code_start = base + head[k].p_vaddr;
            code_end = code_start + head[k].p_memsz;
        }
}

/* the program may end without a word to its libraries, so the counts are kept where others see them */
static void keep_in(const char *path) {
    int file = open(path, O_RDWR | O_CREAT | O_TRUNC, 0666);
    if (file < 0 || ftruncate(file, sizeof own)) _exit(99);
    void *place = mmap(NULL, sizeof own, PROT_READ | PROT_WRITE, MAP_SHARED, file, 0);
    if (place == MAP_FAILED) _exit(99);
    close(file);
    counts = place;
}

__attribute__((constructor)) static void begin(void) {
    const char *at = getenv("REFUSE_AT"), *more = getenv("REFUSE_LATER"), *of = getenv("REFUSE_OF");
    refuse_at = at ? strtoul(at, NULL, 10) : 0;
    later = more && strcmp(more, "1") == 0;
    if (of && strcmp(of, "library") == 0) whose = LIBRARY;
    if (of && strcmp(of, "both") == 0) whose = PROGRAM | LIBRARY;
    if (getenv("REFUSE_TO")) keep_in(getenv("REFUSE_TO"));
    find_code();
}

/* whether the call that returns to this place counts */
static int is_counted(const void *caller) {
    uintptr_t from = (uintptr_t)caller;
    int who = code_start <= from && from < code_end ? PROGRAM : LIBRARY;
    return code_end && (who & whose);
}

/* whether the call that returns to this place is refused */
static int is_refused(const void *caller) {
    if (!is_counted(caller)) return 0;
    unsigned long number = atomic_fetch_add(&counts->counted, 1) + 1;
    if (!refuse_at || (later ? number < refuse_at : number != refuse_at)) return 0;
    atomic_fetch_add(&counts->refused, 1);
    errno = ENOMEM;
    return 1;
}

/* the block that the call that returns to this place took */
static void *taken(void *block, const void *caller) {
    if (block && is_counted(caller)) atomic_fetch_add(&counts->held, 1);
    return block;
}

#define CALLER __builtin_return_address(0)
#define REFUSED is_refused(CALLER)

void *malloc(size_t size) { return REFUSED ? NULL : taken(__libc_malloc(size), CALLER); }

void *calloc(size_t count, size_t size) { return REFUSED ? NULL : taken(__libc_calloc(count, size), CALLER); }

void *realloc(void *old, size_t size) {
    if (REFUSED) return NULL;
    void *found = __libc_realloc(old, size);
    return old ? found : taken(found, CALLER);
}

void *memalign(size_t alignment, size_t size) { return REFUSED ? NULL : taken(__libc_memalign(alignment, size), CALLER); }

void *aligned_alloc(size_t alignment, size_t size) { return REFUSED ? NULL : taken(__libc_memalign(alignment, size), CALLER); }

int posix_memalign(void **result, size_t alignment, size_t size) {
    void *found = REFUSED ? NULL : taken(__libc_memalign(alignment, size), CALLER);
    if (!found) return ENOMEM;
    *result = found;
    return 0;
}

void free(void *block) {
    if (block && is_counted(CALLER)) atomic_fetch_sub(&counts->held, 1);
    __libc_free(block);
}
