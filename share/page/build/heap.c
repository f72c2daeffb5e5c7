/* The memory that the program's module gets and gives back: the functions of the toolchain's heap, over the module's own memory.
 *
 * Blocks lie behind one another, each behind 16 bytes with its size and that of the block before it. The free ones lie in lists by their size,
 * and no two of them are neighbours. */
typedef __SIZE_TYPE__ size_t;
typedef __UINT64_TYPE__ uint64_t;

typedef struct block {
    size_t before; /* the size of the block before it, 0 at the first one */
    size_t size;   /* its own, with these 16 bytes, a multiple of 16; 1 more while it is used */
    struct block *next, *last; /* while it is free */
} block;

/* What the toolchain's code expects of a call: whether there was memory, and where. */
typedef struct tried {
    uint64_t ok;
    void *p;
} tried;

enum { PAGE = 65536, LEAST = 32, HEAD = 16, LISTS = 128 };
#define LARGEST ((size_t)1 << 40)

extern unsigned char __heap_base;
static block *lists[LISTS];
static uint64_t filled[LISTS / 64]; /* a bit for each list that isn't empty */
static block *top;                  /* a used block of 16 bytes at the end of the memory, or null before the first call */
static size_t most = (size_t)1 << 32; /* the most bytes that the memory may have */
static unsigned char nothing;         /* where blocks of no bytes lie */

static size_t size_of(block *b) { return b->size & ~(size_t)15; }
static int is_used(block *b) { return b->size & 1; }
static block *behind(block *b) { return (block *)((char *)b + size_of(b)); }
static block *head_of(void *p) { return (block *)((char *)p - HEAD); }
static size_t size_for(size_t n) { return n < 16 ? LEAST : ((n + 15) & ~(size_t)15) + HEAD; }
static block *first(void) { return (block *)(((size_t)&__heap_base + 15) & ~(size_t)15); }

/* The list of a size: one for each multiple of 16 below 512, then four for each power of two. */
static unsigned list_of(size_t size) {
    if (size < 512) return (unsigned)(size / 16);
    unsigned log = 63 - (unsigned)__builtin_clzll(size);
    unsigned it = 32 + (log - 9) * 4 + (unsigned)(size >> (log - 2) & 3);
    return it < LISTS - 1 ? it : LISTS - 1;
}

static void put(block *b) {
    unsigned l = list_of(b->size);
    b->next = lists[l];
    b->last = 0;
    if (b->next) b->next->last = b;
    lists[l] = b;
    filled[l / 64] |= 1ull << l % 64;
}

static void drop(block *b) {
    unsigned l = list_of(b->size);
    if (b->next) b->next->last = b->last;
    if (b->last) b->last->next = b->next;
    else if (!(lists[l] = b->next)) filled[l / 64] &= ~(1ull << l % 64);
}

/* Gives a block back to the lists, joined with its free neighbours. */
static void release(block *b) {
    b->size = size_of(b);
    block *after = behind(b);
    if (!is_used(after)) {
        drop(after);
        b->size += after->size;
    }
    if (b->before) {
        block *previous = (block *)((char *)b - b->before);
        if (!is_used(previous)) {
            drop(previous);
            previous->size += b->size;
            b = previous;
        }
    }
    behind(b)->before = b->size;
    put(b);
}

/* Takes what the memory has behind the heap, or behind the module's data before there is one, into the heap. */
static void extend(void) {
    char *end = (char *)(__builtin_wasm_memory_size(0) * PAGE);
    block *b = top;
    if (!b) {
        b = first();
        b->before = 0;
    }
    b->size = (size_t)(end - HEAD - (char *)b);
    top = (block *)(end - HEAD);
    top->size = HEAD | 1;
    release(b);
}

/* Makes the memory larger by at least so many bytes, and by a sixteenth where that can be had, so that it is seldom asked for. Tells whether. */
static int grow(size_t size) {
    size_t now = __builtin_wasm_memory_size(0), all = most / PAGE, pages = (size + PAGE - 1) / PAGE, more = now / 16;
    if (pages > all || now > all - pages) return 0;
    if (more <= pages || now > all - more || __builtin_wasm_memory_grow(0, more) == (size_t)-1)
        if (__builtin_wasm_memory_grow(0, pages) == (size_t)-1) return 0;
    extend();
    return 1;
}

/* A free block of at least this size, out of its list, or null: one of the size's own list, or else any of a list of larger ones. */
static block *find(size_t size) {
    unsigned l = list_of(size);
    for (block *b = lists[l]; b; b = b->next)
        if (b->size >= size) {
            drop(b);
            return b;
        }
    for (l++; l < LISTS; l = (l / 64 + 1) * 64) {
        uint64_t larger = filled[l / 64] >> l % 64;
        if (larger) {
            block *b = lists[l + (unsigned)__builtin_ctzll(larger)];
            drop(b);
            return b;
        }
    }
    return 0;
}

/* Cuts off what a used block has beyond this size. */
static void cut(block *b, size_t size) {
    size_t all = size_of(b);
    if (all - size < LEAST) return;
    b->size = size | 1;
    block *rest = behind(b);
    rest->before = size;
    rest->size = all - size;
    release(rest);
}

/* The heap's first and last block must have room. */
static int begin(void) {
    if (__builtin_wasm_memory_size(0) * PAGE < (size_t)first() + 64) return grow(PAGE);
    extend();
    return 1;
}

static void *get(size_t n) {
    if (n > LARGEST || (!top && !begin())) return 0;
    size_t size = size_for(n);
    block *b = find(size);
    if (!b && grow(size + HEAD)) b = find(size);
    if (!b) return 0;
    b->size |= 1;
    cut(b, size);
    return (char *)b + HEAD;
}

/* align is at most 16. */
tried rattle_alloc(size_t n, size_t align) {
    (void)align;
    void *p = n ? get(n) : &nothing;
    return (tried){p != 0, p};
}

void rattle_dealloc(void *p) {
    if (p != &nothing) release(head_of(p));
}

/* A block of n bytes that begins with the first `kept` of p, or with as many as it has room for. */
tried rattle_realloc(void *p, size_t kept, size_t n, size_t align) {
    if (p == &nothing) return rattle_alloc(n, align);
    if (!n) {
        rattle_dealloc(p);
        return (tried){1, &nothing};
    }
    if (n > LARGEST) return (tried){0, 0};
    block *b = head_of(p), *after = behind(b);
    size_t size = size_for(n);
    if (!is_used(after) && size_of(b) < size && size_of(b) + after->size >= size) {
        drop(after);
        b->size += after->size;
        behind(b)->before = size_of(b);
    }
    if (size_of(b) >= size) {
        cut(b, size);
        return (tried){1, p};
    }
    void *q = get(n);
    if (!q) return (tried){0, 0};
    __builtin_memcpy(q, p, kept < n ? kept : n);
    rattle_dealloc(p);
    return (tried){1, q};
}

/* What the page asks for: rooms to lay bytes into, null where there is no memory. */
__attribute__((export_name("apl_room"))) void *apl_room(size_t n) { return get(n); }
__attribute__((export_name("apl_free"))) void apl_free(void *p) { release(head_of(p)); }

/* A room for a session, in which none stands: its bytes are zeros. */
__attribute__((export_name("apl_place"))) void *apl_place(void) {
    void *p = get(PLACE);
    if (p) __builtin_memset(p, 0, PLACE);
    return p;
}

/* The most bytes of memory from now on. What it has stays. */
__attribute__((export_name("apl_most"))) void apl_most(size_t bytes) { most = bytes; }
