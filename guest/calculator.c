/* Evaluates the lines of the input, one by one, and writes each one's value in decimal, or for a bad line its number
 * and the first error in it, from the left. Exits with 1 where some line was bad, and else with 0.
 *
 *     line    = [ sum ]                           a line of blanks alone writes nothing
 *     sum     = product { ( "+" | "-" ) product }
 *     product = factor { ( "*" | "/" | "%" ) factor }
 *     factor  = { "-" } ( number | "(" sum ")" )
 *
 * with blanks between them. A value is a number of 32 bits in two's complement, and results wrap: 2147483647 + 1 is
 * -2147483648, and so is -2147483648 / -1. Quotients are rounded towards zero, and a remainder has the sign of the
 * dividend. Values are kept as uint32_t, which C computes modulo 2^32; it leaves open what a signed overflow does. */
#include <stdbool.h>
#include "machine.h"

/* 2^31: the largest number in a line, so that the least value can be written. */
#define MAX_NUMBER 2147483648u
/* How many parentheses may be open at once: each takes stack, of which a host has less than the machine. */
#define MAX_OPEN 100u

struct reader {
    const uint8_t *at;      /* the next byte */
    const uint8_t *end;     /* the end of the line */
    uint32_t open;          /* how many parentheses are open */
    const char *error;      /* the first error, or 0 */
};

static bool is_negative(uint32_t value)
{
    return value >> 31 != 0;
}

static uint32_t negated_if(bool condition, uint32_t value)
{
    return condition ? 0 - value : value;
}

static uint32_t magnitude(uint32_t value)
{
    return negated_if(is_negative(value), value);
}

/* Notes an error, unless there was one before; the value doesn't matter then. */
static uint32_t failed(struct reader *r, const char *error)
{
    if (r->error == 0)
        r->error = error;
    return 0;
}

/* The next byte that isn't a blank; at the end of the line a newline, which is in no line. */
static uint8_t next(struct reader *r)
{
    while (r->at < r->end && (*r->at == ' ' || *r->at == '\t' || *r->at == '\r'))
        r->at += 1;
    return r->at < r->end ? *r->at : '\n';
}

static uint32_t sum(struct reader *r);

static uint32_t factor(struct reader *r)
{
    bool is_negated = false;
    for (; next(r) == '-'; r->at += 1)
        is_negated = !is_negated;
    uint8_t first = next(r);
    uint32_t value = 0;
    if (first >= '0' && first <= '9') {
        for (; r->at < r->end && *r->at >= '0' && *r->at <= '9'; r->at += 1) {
            uint32_t digit = *r->at - (uint32_t)'0';
            if (value > (MAX_NUMBER - digit) / 10)
                return failed(r, "number above 2147483648");
            value = value * 10 + digit;
        }
    } else if (first == '(') {
        if (r->open == MAX_OPEN)
            return failed(r, "more than 100 open parentheses");
        r->at += 1;
        r->open += 1;
        value = sum(r);
        if (next(r) != ')')
            return failed(r, "operator or ) expected");
        r->at += 1;
        r->open -= 1;
    } else {
        return failed(r, "number or ( expected");
    }
    return negated_if(is_negated, value);
}

static uint32_t product(struct reader *r)
{
    uint32_t value = factor(r);
    while (r->error == 0 && (next(r) == '*' || next(r) == '/' || next(r) == '%')) {
        uint8_t sign = *r->at;
        r->at += 1;
        uint32_t other = factor(r);
        if (sign == '*')
            value *= other;
        else if (other == 0)
            failed(r, "division by zero");
        else if (sign == '/')
            value = negated_if(is_negative(value) != is_negative(other), magnitude(value) / magnitude(other));
        else
            value = negated_if(is_negative(value), magnitude(value) % magnitude(other));
    }
    return value;
}

static uint32_t sum(struct reader *r)
{
    uint32_t value = product(r);
    while (r->error == 0 && (next(r) == '+' || next(r) == '-')) {
        bool is_negated = *r->at == '-';
        r->at += 1;
        value += negated_if(is_negated, product(r));
    }
    return value;
}

static void put_text(const char *text)
{
    for (; *text != 0; text += 1)
        put_byte((uint8_t)*text);
}

static void put_number(uint32_t value)
{
    if (value >= 10)
        put_number(value / 10);
    put_byte((uint8_t)('0' + value % 10));
}

/* Writes the result of a line, and returns whether it was good. */
static bool evaluate(struct reader r, uint32_t line)
{
    if (next(&r) == '\n')
        return true;
    uint32_t value = sum(&r);
    if (next(&r) != '\n')
        failed(&r, "operator expected");
    if (r.error == 0) {
        put_text(is_negative(value) ? "-" : "");
        put_number(magnitude(value));
    } else {
        put_text("line ");
        put_number(line);
        put_text(": ");
        put_text(r.error);
    }
    put_byte('\n');
    return r.error == 0;
}

int main(void)
{
    const uint8_t *at = input_bytes();
    const uint8_t *end = at + input_length();
    int status = 0;
    for (uint32_t line = 1; at < end; line += 1) {
        const uint8_t *start = at;
        while (at < end && *at != '\n')
            at += 1;
        if (!evaluate((struct reader){start, at, 0, 0}, line))
            status = 1;
        at += at < end;
    }
    return status;
}
