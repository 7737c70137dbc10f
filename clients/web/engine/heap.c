// The heap of the module, in place of the kit's over malloc: blocks of some sizes, with a list of free blocks for each. A block
// comes from its list, else from the end of the memory, which grows as needed. Nothing proves this file; it has to keep the
// contracts of the kit's heap: a block is aligned to 16 and lies apart from all others, and `rattle_realloc` keeps its first bytes.
typedef unsigned long size_t;
typedef unsigned char byte;

struct tried {
    size_t ok;                      // 1 where there is memory, else 0
    void *at;
};

#define PAGE 65536ul
#define LEAST 32ul                  // the least size of a block with its header
#define CLASSES 160                 // the last class has blocks of over 2^44 bytes

struct block {
    size_t class;                   // 16 bytes of header
    struct block *next;             // in use only while the block is free
};

extern byte __heap_base;
static byte *front, *end;           // what was never given
static struct block *free_blocks[CLASSES];
static size_t limit = 1ul << 32;    // the most bytes that the memory may have
static size_t used;

// Sizes are 32, 48, 64, 80, 96, 112, 128, 160, ..: four to each power of two, as far as they are multiples of 16.
static size_t size_of_class(size_t class) {
    size_t power = LEAST << (class >> 2);
    return (power + (power >> 2) * (class & 3) + 15) & ~15ul;
}

// The least class whose blocks have so many bytes, from 33 to 2^40 + 16; or fewer, which is class 0.
static size_t class_of(size_t size) {
    if (size <= LEAST) return 0;
    size_t log = 63 - (size_t)__builtin_clzl(size - 1);         // 2^log <= size - 1 < 2^(log + 1)
    size_t quarter = (size - 1 - (1ul << log)) >> (log - 2);
    return ((log - 5) << 2) + quarter + 1;
}

// Makes room for a block at the front. Returns whether there is memory.
static _Bool grow(size_t size) {
    if (!front) {
        front = (byte *)(((size_t)&__heap_base + 15) & ~15ul);
        end = (byte *)(__builtin_wasm_memory_size(0) * PAGE);
    }
    if ((size_t)(end - front) >= size) return 1;
    size_t pages = (size - (size_t)(end - front) + PAGE - 1) / PAGE;
    size_t eighth = (size_t)end / PAGE / 8 + 16;
    if ((size_t)end + pages * PAGE > limit) return 0;
    if (pages < eighth && (size_t)end + eighth * PAGE <= limit) pages = eighth;
    if (__builtin_wasm_memory_grow(0, pages) == (size_t)-1) return 0;
    end += pages * PAGE;
    return 1;
}

static void *take(size_t bytes) {
    if (bytes > 1ul << 40) return 0;
    size_t class = class_of(bytes + 16), size = size_of_class(class);
    struct block *block = free_blocks[class];
    if (block) {
        free_blocks[class] = block->next;
    } else {
        if (!grow(size)) return 0;
        block = (struct block *)front;
        front += size;
        block->class = class;
    }
    used += size;
    return (byte *)block + 16;
}

static void give(void *at) {
    struct block *block = (struct block *)((byte *)at - 16);
    used -= size_of_class(block->class);
    block->next = free_blocks[block->class];
    free_blocks[block->class] = block;
}

struct tried rattle_alloc(size_t bytes, size_t alignment) {
    void *at = alignment > 16 ? 0 : take(bytes);
    return (struct tried){at != 0, at};
}

struct tried rattle_realloc(void *at, size_t kept, size_t bytes, size_t alignment) {
    struct block *block = (struct block *)((byte *)at - 16);
    // a block that is large enough stays, unless it is four times too large
    if (alignment <= 16 && bytes < 1ul << 40 && class_of(bytes + 16) <= block->class && size_of_class(block->class) / 4 <= bytes + 16)
        return (struct tried){1, at};
    struct tried to = rattle_alloc(bytes, alignment);
    if (to.ok) {
        __builtin_memcpy(to.at, at, kept < bytes ? kept : bytes);
        give(at);
    }
    return to;
}

void rattle_dealloc(void *at) { give(at); }

// For JavaScript: room for the bytes that it hands over, a bound on the memory, and what is in use.
void *stratbench_room(size_t bytes) { return take(bytes); }
void stratbench_release(void *at) { give(at); }
void stratbench_limit(size_t bytes) { limit = bytes; }
size_t stratbench_used(void) { return used; }
