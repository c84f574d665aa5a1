/*
 * The loops of bench/run in plain C: `loops NAME TIMES` goes TIMES times round the loop of that name (at least once), and
 * prints the number that the program of the bench puts out at its end.
 */
#include <stdint.h>
#include <stdio.h>
#include <stdlib.h>
#include <string.h>

/* As many bytes as the storing programs reach: 1024 pages of 4096. */
static uint32_t memory[1024 * 1024];

/* As many bytes as the largest input. */
static unsigned char input[1024 * 1024];

/* The empty assembly keeps the compiler from adding everything at once. */
static uint32_t counting(uint32_t times)
{
    uint32_t count = 0;
    do {
        count += 1;
        __asm__ volatile("" : "+r"(count));
    } while (count != times);
    return count;
}

/* `volatile` keeps each store. */
static uint32_t storing(uint32_t times, unsigned shift, uint32_t mask)
{
    volatile uint32_t *word;
    uint32_t count = 0;
    do {
        word = memory + ((count << shift) & mask) / 4;
        *word = count;
        count += 1;
    } while (count != times);
    return *word;
}

/* `volatile` keeps the loop from taking several bytes at once. A time is once over the whole input. */
static uint32_t adding(uint32_t times)
{
    size_t length = fread(input, 1, sizeof input, stdin);
    uint32_t sum = 0;
    for (; times != 0; times--)
        for (size_t k = 0; k != length; k++)
            sum += *(volatile unsigned char *)(input + k);
    return sum;
}

int main(int count, char **words)
{
    uint32_t times = count == 3 ? (uint32_t)strtoul(words[2], NULL, 10) : 0;
    uint32_t end;
    if (times == 0)
        return 2;
    else if (strcmp(words[1], "counting") == 0)
        end = counting(times);
    else if (strcmp(words[1], "one_page") == 0)
        end = storing(times, 2, 0xffc);
    else if (strcmp(words[1], "many_pages") == 0)
        end = storing(times, 12, 0x3ff000);
    else if (strcmp(words[1], "adding") == 0)
        end = adding(times);
    else
        return 2;
    printf("%lu\n", (unsigned long)end);
    return 0;
}
