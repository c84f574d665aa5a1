/* What the module needs beside itself for WebAssembly: a heap over a memory that grows, and arithmetic on numbers of 128 bits. Nothing proves it.
 *
 * A block has a power of two bytes, and before it 16 bytes, the first of which hold the logarithm of its size. Blocks that are freed stand in a list by
 * size, and are taken from it again. What a call takes is given back at its end, so that memory grows to what the largest call needs. */

typedef unsigned long size_t;
typedef unsigned char byte;

enum { PAGE_LOG = 16, HEADER = 16, LEAST_LOG = 4, SIZES = 48, GROWN_PAGES = 64 };

/* As the module takes it: two words, and a pointer that isn't null. */
typedef struct {
    unsigned long is_there;
    byte *place;
} Taken;

struct Free {
    struct Free *next;
};

extern byte __heap_base;
static byte nowhere;
static byte *next, *end;
static struct Free *lists[SIZES];

static int log_of(size_t size)
{
    int log = LEAST_LOG;
    while (((size_t)1 << log) < size)
        log += 1;
    return log;
}

static size_t log_at(const byte *block)
{
    return *(const size_t *)(block - HEADER);
}

/* Makes room for so many bytes from `next` on. Whether there is. */
static int has_room(size_t size)
{
    if (next == 0) {
        next = (byte *)(((size_t)&__heap_base + HEADER - 1) & ~(size_t)(HEADER - 1));
        end = (byte *)(__builtin_wasm_memory_size(0) << PAGE_LOG);
    }
    if ((size_t)(end - next) >= size)
        return 1;
    size_t pages = (size - (size_t)(end - next) + ((size_t)1 << PAGE_LOG) - 1) >> PAGE_LOG;
    if (pages < GROWN_PAGES)
        pages = GROWN_PAGES;
    if (__builtin_wasm_memory_grow(0, pages) == ~(size_t)0)
        return 0;
    end += pages << PAGE_LOG;
    return 1;
}

/* A block of at least so many bytes, or null. */
byte *page_alloc(size_t size)
{
    if (size > (size_t)1 << (SIZES - 1))
        return 0;
    int log = log_of(size);
    if (lists[log] != 0) {
        struct Free *block = lists[log];
        lists[log] = block->next;
        return (byte *)block;
    }
    size_t whole = ((size_t)1 << log) + HEADER;
    if (!has_room(whole))
        return 0;
    byte *block = next + HEADER;
    *(size_t *)next = (size_t)log;
    next += whole;
    return block;
}

void page_free(byte *block)
{
    struct Free *freed = (struct Free *)block;
    freed->next = lists[log_at(block)];
    lists[log_at(block)] = freed;
}

static Taken taken(byte *block)
{
    return (Taken){block != 0, block != 0 ? block : &nowhere};
}

/* The three functions of the toolchain's standard library. Every block is aligned to 16 bytes, which is the most that is asked for. */
Taken rattle_alloc(size_t size, size_t align)
{
    return taken(page_alloc(size != 0 ? size : align));
}

Taken rattle_realloc(byte *block, size_t kept, size_t size, size_t align)
{
    if (size <= (size_t)1 << log_at(block))
        return taken(block);
    byte *other = page_alloc(size != 0 ? size : align);
    if (other != 0) {
        __builtin_memcpy(other, block, kept < size ? kept : size);
        page_free(block);
    }
    return taken(other);
}

void rattle_dealloc(byte *block)
{
    page_free(block);
}

/* Numbers of 128 bits, from their halves, as the compiler calls them. */

typedef unsigned long half;
typedef unsigned __int128 whole;

typedef union {
    whole number;
    struct {
        half low, high;
    } of;
} Halves;

static whole joined(half low, half high)
{
    Halves halves;
    halves.of.low = low;
    halves.of.high = high;
    return halves.number;
}

static Halves cut(whole number)
{
    Halves halves;
    halves.number = number;
    return halves;
}

whole __ashlti3(whole number, int places)
{
    Halves of = cut(number);
    if (places == 0)
        return number;
    if (places >= 64)
        return joined(0, of.of.low << (places - 64));
    return joined(of.of.low << places, of.of.high << places | of.of.low >> (64 - places));
}

whole __lshrti3(whole number, int places)
{
    Halves of = cut(number);
    if (places == 0)
        return number;
    if (places >= 64)
        return joined(of.of.high >> (places - 64), 0);
    return joined(of.of.low >> places | of.of.high << (64 - places), of.of.high >> places);
}

whole __multi3(whole first, whole second)
{
    Halves a = cut(first), b = cut(second);
    half mask = 0xffffffff, a0 = a.of.low & mask, a1 = a.of.low >> 32, b0 = b.of.low & mask, b1 = b.of.low >> 32;
    half p00 = a0 * b0, p01 = a0 * b1, p10 = a1 * b0, p11 = a1 * b1;
    half middle = (p00 >> 32) + (p01 & mask) + (p10 & mask);
    half high = p11 + (p01 >> 32) + (p10 >> 32) + (middle >> 32) + a.of.low * b.of.high + a.of.high * b.of.low;
    return joined((p00 & mask) | middle << 32, high);
}

/* Long division by bits. A divisor of 0 doesn't come. */
static whole divided(whole number, whole divisor, whole *rest)
{
    Halves a = cut(number), b = cut(divisor);
    if (a.of.high == 0 && b.of.high == 0) {
        *rest = a.of.low % b.of.low;
        return a.of.low / b.of.low;
    }
    half q_low = 0, q_high = 0, r_low = 0, r_high = 0;
    for (int at = 127; at >= 0; at -= 1) {
        half bit = at >= 64 ? a.of.high >> (at - 64) & 1 : a.of.low >> at & 1;
        r_high = r_high << 1 | r_low >> 63;
        r_low = r_low << 1 | bit;
        if (r_high > b.of.high || (r_high == b.of.high && r_low >= b.of.low)) {
            r_high = r_high - b.of.high - (r_low < b.of.low);
            r_low -= b.of.low;
            if (at >= 64)
                q_high |= (half)1 << (at - 64);
            else
                q_low |= (half)1 << at;
        }
    }
    *rest = joined(r_low, r_high);
    return joined(q_low, q_high);
}

whole __udivti3(whole number, whole divisor)
{
    whole rest;
    return divided(number, divisor, &rest);
}

whole __umodti3(whole number, whole divisor)
{
    whole rest;
    divided(number, divisor, &rest);
    return rest;
}
