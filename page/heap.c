/* The heap of the module: what the toolchain's own has over malloc, over WebAssembly's memory. A block has a power of two of
 * bytes, from 32 on, and each size has a list of free blocks. A budget, for tests, refuses all growths after a number. */
typedef unsigned char byte;
typedef unsigned long size;

/* What the program gets: whether there is memory, and where. Without it the place is no place, and not used. */
struct tried { _Bool ok; void *at; };
/* 16 bytes before each block. */
struct head { size room; struct head *next; };

#define PAGE 65536ul
enum { SMALLEST = 5, SIZES = 40, PAGES_AT_ONCE = 16 };
extern byte __heap_base;
static byte *top, *end;
static struct head *freed[SIZES + 1];
/* After this number of growths all more are refused; below 0 none is. */
static long left = -1;
static size growths;

static int class_of(size count) {
    int class = count > 1 ? 64 - __builtin_clzl(count - 1) : 0;
    return class < SMALLEST ? SMALLEST : class;
}

static _Bool is_refused(void) {
    growths++;
    if (left < 0) return 0;
    if (left == 0) return 1;
    left--;
    return 0;
}

/* Whether there are this number of bytes more at the end of the memory. */
static _Bool has_more(size needed) {
    if (!top) {
        top = (byte *)(((size)&__heap_base + 15) & ~15ul);
        end = (byte *)(__builtin_wasm_memory_size(0) * PAGE);
    }
    size there = (size)(end - top);
    if (there >= needed) return 1;
    size pages = (needed - there + PAGE - 1) / PAGE, more = pages < PAGES_AT_ONCE ? PAGES_AT_ONCE : pages;
    if (__builtin_wasm_memory_grow(0, more) == (size)-1) {
        more = pages;
        if (__builtin_wasm_memory_grow(0, more) == (size)-1) return 0;
    }
    end += more * PAGE;
    return 1;
}

static void *take(size count) {
    int class = class_of(count);
    if (class > SIZES) return 0;
    struct head *found = freed[class];
    if (found) {
        freed[class] = found->next;
        return found + 1;
    }
    size needed = (1ul << class) + sizeof(struct head);
    if (!has_more(needed)) return 0;
    found = (struct head *)top;
    top += needed;
    found->room = 1ul << class;
    return found + 1;
}

static void give(void *at) {
    if (!at) return;
    struct head *block = (struct head *)at - 1;
    int class = class_of(block->room);
    block->next = freed[class];
    freed[class] = block;
}

/* What compilers call. */
void *memcpy(void *to, const void *from, size count) { __builtin_memcpy(to, from, count); return to; }
void *memmove(void *to, const void *from, size count) { __builtin_memmove(to, from, count); return to; }
void *memset(void *to, int value, size count) { __builtin_memset(to, value, count); return to; }
int memcmp(const void *p, const void *q, size count) {
    const byte *x = p, *y = q;
    for (; count; count--, x++, y++) if (*x != *y) return *x - *y;
    return 0;
}
int bcmp(const void *p, const void *q, size count) { return memcmp(p, q, count); }
size strlen(const char *text) { size count = 0; while (text[count]) count++; return count; }

/* What the program calls. */
static struct tried given(void *at) { return (struct tried){at != 0, at ? at : (void *)16}; }

struct tried rattle_alloc(size count, size align) { return is_refused() ? given(0) : given(take(count ? count : align)); }

struct tried rattle_realloc(void *at, size kept, size count, size align) {
    size wanted = count ? count : align;
    if (is_refused()) return given(0);
    if (wanted <= ((struct head *)at - 1)->room) return given(at);
    void *larger = take(wanted);
    if (!larger) return given(0);
    __builtin_memcpy(larger, at, kept < count ? kept : count);
    give(at);
    return given(larger);
}

void rattle_dealloc(void *at) { give(at); }

/* What the page calls. */
#define SHOWN(name) __attribute__((export_name(#name)))
SHOWN(room) void *room(size count) { return take(count ? count : 1); }
SHOWN(give_back) void give_back(void *at) { give(at); }
SHOWN(refuse_after) void refuse_after(long count) { left = count; growths = 0; }
SHOWN(heap_growths) size heap_growths(void) { return growths; }
