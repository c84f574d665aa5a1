/* Writes the lines of the input in the order of their bytes, as `LC_ALL=C sort` does, and exits with 0. A line ends
 * in a newline, which the last one may lack; each is written with one. Equal lines are all kept.
 *
 * A merge sort from below: runs of 1 line are merged to runs of 2, these to runs of 4, and so on. n lines take log2 n
 * passes, rounded up, of fewer than n comparisons each, whatever their order. */
#include <stdbool.h>
#include "machine.h"

struct line {
    uint32_t start;     /* where it begins in the input */
    uint32_t length;    /* without its newline */
};

/* A line takes at least one byte of the input, so there is room for all. A page that isn't touched takes no memory. */
static struct line lines[MAX_INPUT_BYTES];
static struct line spare[MAX_INPUT_BYTES];

/* Finds the lines, and returns their number. */
static uint32_t find_lines(void)
{
    const uint8_t *input = input_bytes();
    uint32_t length = input_length();
    uint32_t count = 0;
    uint32_t start = 0;
    for (uint32_t at = 0; at < length; at += 1) {
        if (input[at] == '\n') {
            lines[count] = (struct line){start, at - start};
            count += 1;
            start = at + 1;
        }
    }
    if (start < length) {
        lines[count] = (struct line){start, length - start};
        count += 1;
    }
    return count;
}

static uint32_t smaller(uint32_t a, uint32_t b)
{
    return a < b ? a : b;
}

/* By the first bytes that differ; where there are none, the shorter line is less. */
static bool is_less(struct line a, struct line b)
{
    const uint8_t *input = input_bytes();
    int order = memcmp(input + a.start, input + b.start, smaller(a.length, b.length));
    return order != 0 ? order < 0 : a.length < b.length;
}

/* Merges the sorted runs low to middle - 1 and middle to high - 1. Of equal lines that of the first run is first. */
static void merge(const struct line *from, struct line *to, uint32_t low, uint32_t middle, uint32_t high)
{
    uint32_t left = low;
    uint32_t right = middle;
    for (uint32_t at = low; at < high; at += 1) {
        if (right == high || (left < middle && !is_less(from[right], from[left]))) {
            to[at] = from[left];
            left += 1;
        } else {
            to[at] = from[right];
            right += 1;
        }
    }
}

/* Sorts the lines, and returns where they are then. */
static const struct line *sorted(uint32_t count)
{
    struct line *from = lines;
    struct line *to = spare;
    for (uint32_t width = 1; width < count; width *= 2) {
        for (uint32_t low = 0; low < count; low += 2 * width)
            merge(from, to, low, smaller(low + width, count), smaller(low + 2 * width, count));
        struct line *merged = to;
        to = from;
        from = merged;
    }
    return from;
}

int main(void)
{
    uint32_t count = find_lines();
    const struct line *line = sorted(count);
    for (uint32_t k = 0; k < count; k += 1) {
        const uint8_t *text = input_bytes() + line[k].start;
        for (uint32_t at = 0; at < line[k].length; at += 1)
            put_byte(text[at]);
        put_byte('\n');
    }
    return 0;
}
