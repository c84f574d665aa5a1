/* Coshalit from C. A program that rules on steps and carries out commands, from standard input to standard output:
 *
 *     embed steps              lines VERSION ROOT PROOF, in hexadecimal: a line for each, such as `leads ROOT`
 *     embed audit|run|list     as the commands of refcli, with their statuses
 *
 * As refcli's, its status is 5 if standard input can't be read, and 6 if standard output can't be written.
 */
#include "coshalit.h"

#include <errno.h>
#include <signal.h>
#include <stdio.h>
#include <stdlib.h>
#include <string.h>

enum { USAGE = 2, READ_FAULT = 5, WRITE_FAULT = 6 };

/* One byte more than a command takes shows that there are too many. */
#define MOST_BYTES 16777217

static void out_of_memory(void) {
    fprintf(stderr, "embed: out of memory\n");
    exit(COSHALIT_OUT_OF_MEMORY);
}

/* The bytes of standard input, `most` of them at most, and a zero byte behind them. */
static unsigned char *read_input(size_t most, size_t *length) {
    size_t room = 1 << 16;
    unsigned char *bytes = malloc(room + 1);
    *length = 0;
    while (bytes != NULL) {
        size_t wanted = room < most ? room : most;
        size_t count = fread(bytes + *length, 1, wanted - *length, stdin);
        *length += count;
        if (ferror(stdin)) {
            fprintf(stderr, "embed: standard input can't be read\n");
            exit(READ_FAULT);
        }
        if (count == 0) {
            bytes[*length] = 0;
            return bytes;
        }
        if (*length == room) {
            unsigned char *larger = realloc(bytes, (room *= 2) + 1);
            if (larger == NULL) free(bytes);
            bytes = larger;
        }
    }
    out_of_memory();
    return NULL;
}

static int digit_of(char letter) {
    const char *digits = "0123456789abcdefABCDEF", *found = letter != 0 ? strchr(digits, letter) : NULL;
    int digit = found != NULL ? (int)(found - digits) : -1;
    return digit < 16 ? digit : digit - 6;
}

/* The bytes of a word of hexadecimal digits, in its own place; how many, or -1 if it is no such word. */
static long bytes_of(char *word) {
    long count = 0;
    for (; word[2 * count] != 0; count++) {
        int high = digit_of(word[2 * count]), low = high < 0 ? -1 : digit_of(word[2 * count + 1]);
        if (low < 0) return -1;
        ((unsigned char *)word)[count] = (unsigned char)(16 * high + low);
    }
    return count;
}

/* Whether a word is the decimal number of a version; what it is. */
static int is_version(const char *word, uint32_t *version) {
    char *end = NULL;
    errno = 0;
    unsigned long long number = word != NULL && *word >= '0' && *word <= '9' ? strtoull(word, &end, 10) : UINT64_MAX;
    if (number > UINT32_MAX || errno != 0 || *end != 0) return 0;
    *version = (uint32_t)number;
    return 1;
}

/* Rules on the step of a line, which is changed. */
static int rule_on(char *line) {
    uint32_t version;
    char nothing[1] = "", *first = strtok(line, " "), *root = strtok(NULL, " "), *proof = strtok(NULL, " ");
    if (proof == NULL) proof = nothing;
    long root_length = root != NULL ? bytes_of(root) : -1, proof_length = bytes_of(proof);
    if (!is_version(first, &version) || root_length < 0 || proof_length < 0) {
        fprintf(stderr, "embed: a line is VERSION ROOT PROOF\n");
        return USAGE;
    }
    unsigned char next[COSHALIT_ROOT_BYTES];
    switch (coshalit_check_step(version, (unsigned char *)root, (size_t)root_length, (unsigned char *)proof,
                                (size_t)proof_length, next, sizeof next)) {
    case COSHALIT_LEADS:
        printf("leads ");
        for (size_t k = 0; k < sizeof next; k++) printf("%02x", next[k]);
        printf("\n");
        break;
    case COSHALIT_NOT_OPEN: printf("not open\n"); break;
    case COSHALIT_WRONG_SHAPE: printf("wrong shape\n"); break;
    case COSHALIT_NO_PROOF: printf("no proof\n"); break;
    default: printf("wrong length\n"); break;
    }
    return 0;
}

static int steps(char *lines) {
    int status = 0;
    for (char *line = lines, *end; status == 0 && *line != 0; line = end) {
        end = line + strcspn(line, "\n");
        if (*end != 0) *end++ = 0;
        status = rule_on(line);
    }
    return status;
}

typedef CoshalitAnswer Command(const uint8_t *, size_t, uint8_t *, size_t);

/* Writes what a command answers, and returns its status. A text that is longer than the first room is asked for again. */
static int answer(Command *command, const unsigned char *bytes, size_t length) {
    unsigned char first[256], *room = first;
    CoshalitAnswer found = command(bytes, length, room, sizeof first);
    if (found.length > sizeof first) {
        room = malloc(found.length);
        if (room == NULL) out_of_memory();
        found = command(bytes, length, room, found.length);
    }
    fwrite(room, 1, found.length, stdout);
    if (room != first) free(room);
    return (int)found.status;
}

int main(int count, char **words) {
    const char *word = count == 2 ? words[1] : "";
    Command *command = NULL;
    if (strcmp(word, "audit") == 0) command = coshalit_audit;
    if (strcmp(word, "run") == 0) command = coshalit_run;
    if (strcmp(word, "list") == 0) command = coshalit_list;
    if (command == NULL && strcmp(word, "steps") != 0) {
        fprintf(stderr, "embed steps|audit|run|list\n");
        return USAGE;
    }
    /* A reader that has gone makes a write fail, and doesn't end the program. */
    signal(SIGPIPE, SIG_IGN);
    size_t length;
    unsigned char *bytes = read_input(command != NULL ? MOST_BYTES : SIZE_MAX, &length);
    int status = command != NULL ? answer(command, bytes, length) : steps((char *)bytes);
    free(bytes);
    if (fflush(stdout) != 0 || ferror(stdout)) {
        fprintf(stderr, "embed: standard output can't be written\n");
        return WRITE_FAULT;
    }
    return status;
}
