/* Answers NULL to one allocation of the process: the one whose number, from 1, the variable REFUSE holds. */
#include <errno.h>
#include <stdlib.h>
#include <unistd.h>

extern void *__libc_malloc(size_t);
extern void *__libc_calloc(size_t, size_t);
extern void *__libc_realloc(void *, size_t);
extern void *__libc_memalign(size_t, size_t);

static unsigned long wanted, made;

__attribute__((constructor)) static void begin(void) {
    const char *number = getenv("REFUSE");
    wanted = number ? strtoul(number, 0, 10) : 0;
    made = 0;
}

static int is_refused(void) {
    static const char line[] = "allocation refused\n";
    if (++made != wanted)
        return 0;
    if (write(2, line, sizeof line - 1) < 0)
        _exit(3);
    errno = ENOMEM;
    return 1;
}

void *malloc(size_t size) { return is_refused() ? 0 : __libc_malloc(size); }
void *calloc(size_t count, size_t size) { return is_refused() ? 0 : __libc_calloc(count, size); }
void *realloc(void *old, size_t size) { return is_refused() ? 0 : __libc_realloc(old, size); }
void *aligned_alloc(size_t align, size_t size) { return is_refused() ? 0 : __libc_memalign(align, size); }

int posix_memalign(void **to, size_t align, size_t size) {
    void *found = is_refused() ? 0 : __libc_memalign(align, size);
    if (!found)
        return ENOMEM;
    *to = found;
    return 0;
}
