/* Writes the Adler-32 of the input (RFC 1950, 'ADLER32'), its greatest byte first, and exits with 0. It reads the input by
 * the call, byte by byte, so its case is of version 3. */
#include "machine.h"

/* The largest prime below 2^16. */
#define BASE 65521u

int main(void)
{
    uint32_t low = 1;
    uint32_t high = 0;
    for (uint32_t number = 0;; number += 1) {
        int32_t byte = read_byte(number);
        if (byte < 0)
            break;
        low = (low + (uint32_t)byte) % BASE;
        high = (high + low) % BASE;
    }
    put_byte((uint8_t)(high >> 8));
    put_byte((uint8_t)high);
    put_byte((uint8_t)(low >> 8));
    put_byte((uint8_t)low);
    return 0;
}
