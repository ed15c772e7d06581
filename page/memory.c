// What the module of the page calls of C: memory that grows, and copies of bytes. It is built for
// 64-bit WebAssembly by tools/page, and nothing proves it.
typedef unsigned long size;
typedef unsigned char byte;
typedef unsigned __int128 wide;

// A block has a power of two of bytes, its class, after 16 bytes that keep the class. Blocks that
// were given back are in a list of their class, linked by their first bytes.
enum { HEAD = 16, LEAST = 4, MOST = 40, PAGE = 65536, PAGES_AT_ONCE = 256 };
extern byte __heap_base;
static byte *next, *end;
static byte *returned[MOST + 1];

static size class_of(size length) {
    size class = LEAST;
    while (class <= MOST && ((size)1 << class) < length) class++;
    return class;
}

// Makes room for so many bytes between next and end; 0 where the memory's limit is reached.
static int reserve(size length) {
    if (!next) {
        next = (byte *)(((size)&__heap_base + HEAD - 1) & ~(size)(HEAD - 1));
        end = (byte *)(__builtin_wasm_memory_size(0) * PAGE);
    }
    if (next < end && (size)(end - next) >= length) return 1;
    size pages = (length + PAGE - 1) / PAGE;
    if (__builtin_wasm_memory_grow(0, pages < PAGES_AT_ONCE ? PAGES_AT_ONCE : pages) != (size)-1
        || __builtin_wasm_memory_grow(0, pages) != (size)-1) {
        end = (byte *)(__builtin_wasm_memory_size(0) * PAGE);
        return 1;
    }
    return 0;
}

__attribute__((export_name("page_room"))) void *malloc(size length) {
    size class = class_of(length);
    if (class > MOST) return 0;
    byte *block = returned[class];
    if (block) {
        returned[class] = *(byte **)block;
        return block;
    }
    size whole = ((size)1 << class) + HEAD;
    if (!reserve(whole)) return 0;
    block = next + HEAD;
    *(size *)next = class;
    next += whole;
    return block;
}

void free(void *block) {
    if (!block) return;
    size class = *(size *)((byte *)block - HEAD);
    *(byte **)block = returned[class];
    returned[class] = block;
}

void *memcpy(void *to, const void *from, size length) {
    byte *a = to;
    const byte *b = from;
    for (size i = 0; i < length; i++) a[i] = b[i];
    return to;
}

void *memmove(void *to, const void *from, size length) {
    byte *a = to;
    const byte *b = from;
    if (a < b) return memcpy(to, from, length);
    while (length--) a[length] = b[length];
    return to;
}

void *memset(void *to, int value, size length) {
    byte *a = to;
    for (size i = 0; i < length; i++) a[i] = (byte)value;
    return to;
}

int memcmp(const void *one, const void *other, size length) {
    const byte *a = one, *b = other;
    for (size i = 0; i < length; i++)
        if (a[i] != b[i]) return a[i] < b[i] ? -1 : 1;
    return 0;
}

int bcmp(const void *one, const void *other, size length) { return memcmp(one, other, length); }

void *realloc(void *block, size length) {
    if (!block) return malloc(length);
    size held = (size)1 << *(size *)((byte *)block - HEAD);
    if (length <= held) return block;
    void *found = malloc(length);
    if (!found) return 0;
    memcpy(found, block, held);
    free(block);
    return found;
}

// The allocator's calls, as the kit's C code answers them: a block, or that there is none.
struct tried { long is_there; void *block; };
static byte nothing[16];
static struct tried tried(void *block) { return (struct tried){block != 0, block ? block : nothing}; }
struct tried rattle_alloc(size length, size align) { return tried(malloc(length ? length : align)); }
struct tried rattle_realloc(void *block, size kept, size length, size align) {
    return tried(realloc(block, length ? length : align));
}
void rattle_dealloc(void *block) { free(block); }

// The product of two numbers of 128 bits, by halves of 32 bits.
wide __multi3(wide a, wide b) {
    size al = (size)a, ah = (size)(a >> 64), bl = (size)b, bh = (size)(b >> 64);
    size a0 = al & 0xffffffff, a1 = al >> 32, b0 = bl & 0xffffffff, b1 = bl >> 32;
    size p00 = a0 * b0, p01 = a0 * b1, p10 = a1 * b0, p11 = a1 * b1;
    size middle = (p00 >> 32) + (p01 & 0xffffffff) + (p10 & 0xffffffff);
    size low = (p00 & 0xffffffff) | (middle << 32);
    size high = p11 + (p01 >> 32) + (p10 >> 32) + (middle >> 32) + al * bh + ah * bl;
    return ((wide)high << 64) | low;
}
