/* What the library needs on WebAssembly that no C library gives there: a heap, whose blocks have powers of two as their sizes, each size
 * with a list of its free blocks; and products and shifts of 128 bits. No proof covers this file. */
#include "uzebox.h"

typedef struct {
    unsigned long is_there;
    void *block;
} allocated;

enum { HEAD = 16, LEAST = 5, MOST = 34, PAGE = 65536 };

extern unsigned char __heap_base;
static unsigned long top;
static void *lists[MOST + 2];

static int size_of(size_t length) {
    int size = LEAST;
    while (((size_t)1 << size) < length + HEAD) size++;
    return size;
}

static void *allocate(size_t length) {
    if (length > (size_t)1 << MOST) return 0;
    int size = size_of(length);
    unsigned char *block = lists[size];
    if (block) {
        lists[size] = *(void **)(block + HEAD);
        return block + HEAD;
    }
    if (!top) top = ((unsigned long)&__heap_base + HEAD - 1) & -(unsigned long)HEAD;
    size_t end = top + ((size_t)1 << size), has = __builtin_wasm_memory_size(0) * (size_t)PAGE;
    if (end > has && __builtin_wasm_memory_grow(0, (end - has + PAGE - 1) / PAGE + 16) == -1ul) return 0;
    block = (unsigned char *)top;
    top = end;
    *(unsigned long *)block = size;
    return block + HEAD;
}

static void release(void *place) {
    if (!place) return;
    unsigned long size = *(unsigned long *)((unsigned char *)place - HEAD);
    *(void **)place = lists[size];
    lists[size] = (unsigned char *)place - HEAD;
}

/* what the library calls */
allocated rattle_alloc(size_t length, size_t alignment) {
    (void)alignment;
    void *block = allocate(length);
    return (allocated){block != 0, block};
}

allocated rattle_realloc(void *place, size_t kept, size_t length, size_t alignment) {
    size_t room = ((size_t)1 << *(unsigned long *)((unsigned char *)place - HEAD)) - HEAD;
    (void)kept, (void)alignment;
    if (length <= room) return (allocated){1, place};
    void *block = allocate(length);
    if (block) {
        __builtin_memcpy(block, place, room);
        release(place);
    }
    return (allocated){block != 0, block};
}

void rattle_dealloc(void *place) {
    release(place);
}

/* what the page calls */
void *host_alloc(size_t length) {
    return allocate(length);
}

void host_free(void *place) {
    release(place);
}

size_t host_state_size(void) {
    return sizeof(uzebox_state);
}

/* what clang calls */
typedef union {
    __int128 all;
    struct {
        unsigned long low, high;
    } part;
} wide;

__int128 __multi3(__int128 a, __int128 b) {
    wide x = {a}, y = {b}, product;
    unsigned long xl = (unsigned)x.part.low, xh = x.part.low >> 32, yl = (unsigned)y.part.low, yh = y.part.low >> 32;
    unsigned long low = xl * yl, one = xl * yh, two = xh * yl, middle = (low >> 32) + (unsigned)one + (unsigned)two;
    product.part.low = middle << 32 | (unsigned)low;
    product.part.high = xh * yh + (one >> 32) + (two >> 32) + (middle >> 32) + x.part.high * y.part.low + x.part.low * y.part.high;
    return product.all;
}

__int128 __ashlti3(__int128 a, int count) {
    wide x = {a}, shifted = {a};
    if (count >= 64) {
        shifted.part.high = x.part.low << (count - 64);
        shifted.part.low = 0;
    } else if (count) {
        shifted.part.high = x.part.high << count | x.part.low >> (64 - count);
        shifted.part.low = x.part.low << count;
    }
    return shifted.all;
}
