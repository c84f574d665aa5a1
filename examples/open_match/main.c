/* A match among real parties: a referee, and three provers in processes of their own, over pipes.
 *
 *     open_match               plays the match, and writes what happened to standard output
 *
 * The referee owns a log of posts and asks the library what the match has come to after it. It knows nothing of the program that is run but
 * its bound and the root of its start. The provers know the case. Prover 1 is honest: it sends what `coshalit_answer` gives. Prover 2 has
 * run another program. Prover 3 has run a third one; it sends its claim late, and then exits.
 *
 * It is short, and so it waits for one party at a time. docs/OPEN_MATCH.md says what a host has to do.
 */
#define _DEFAULT_SOURCE 1

#include "coshalit.h"

#include <errno.h>
#include <poll.h>
#include <signal.h>
#include <stdio.h>
#include <stdlib.h>
#include <string.h>
#include <sys/wait.h>
#include <time.h>
#include <unistd.h>

enum { PROVERS = 3, PATIENCE = 1, BOUND = 8, PERIOD = 500, BUDGET = 1500 };

/* An honest answer has at most max(2,948, 122 + n) bytes, where n is the length of the true output. A program puts out at most one byte a
 * step, so n is at most 8 here. A longer answer is none: the agreement on n is made before the match. */
enum { MOST_ANSWER = 2948 };

/* So often a call is made again that gets no memory. With the cap no answer needs much, so it isn't the fault of who sent the last one. */
enum { MOST_TRIES = 100 };

/* At most so many posts of a match have an effect (docs/GAME.md, 'Disputes'): (P + 1) (m + 2 (m - 1) (K + 1)), for m = 3 provers, the
 * patience P = 1 and K = 3 rounds. This host appends no others, so the log has a room that always suffices, and so has the text. */
enum { MOST_POSTS = 38, MOST_LOG = MOST_POSTS * (16 + MOST_ANSWER), MOST_TEXT = 4 * MOST_LOG + 1024 };

/* The case of a program that puts out one byte and exits. The provers' scripts count for nothing here. */
#define CASE(BYTE_OUT)                                                                                                                       \
    "{\"format\":\"flat\",\"image\":\"1305" BYTE_OUT "029308100073000000130500009308d00573000000\",\"input\":\"\",\"bound\":8,"                \
    "\"patience\":1,\"provers\":[{}]}"

static const char *const CASES[PROVERS] = {CASE("a0"), CASE("b0"), CASE("c0")};

static void stop(const char *why) {
    fprintf(stderr, "open_match: %s\n", why);
    exit(1);
}

/* Whether a call that got no memory is to be made again, after a while. `tries` counts how often it was. */
static int again(uint32_t status, int *tries) {
    if (status != COSHALIT_OUT_OF_MEMORY) return 0;
    if (++*tries > MOST_TRIES) stop("there is no memory");
    usleep(1000 * PERIOD / 10);
    return 1;
}

/* Reads or writes all of these bytes; false if the other end is gone. */
static int read_all(int from, void *bytes, size_t length) {
    for (size_t done = 0; done < length;) {
        ssize_t count = read(from, (char *)bytes + done, length - done);
        if (count < 0 && errno == EINTR) continue;
        if (count <= 0) return 0;
        done += (size_t)count;
    }
    return 1;
}

static int write_all(int to, const void *bytes, size_t length) {
    for (size_t done = 0; done < length;) {
        ssize_t count = write(to, (const char *)bytes + done, length - done);
        if (count < 0 && errno == EINTR) continue;
        if (count <= 0) return 0;
        done += (size_t)count;
    }
    return 1;
}

/* A prover: to each question that comes, the answer of the run of its case. */
static void prove(int number, int questions, int answers) {
    static uint8_t room[MOST_ANSWER];
    const char *json = CASES[number - 1];
    CoshalitQuestion asked;
    while (read_all(questions, &asked, sizeof asked)) {
        CoshalitAnswer answer;
        int tries = 0;
        do {
            answer = coshalit_answer((const uint8_t *)json, strlen(json), asked.kind, asked.low, asked.high, asked.parts, room, sizeof room);
        } while (again(answer.status, &tries));
        uint32_t length = (uint32_t)answer.length;
        if (answer.status != COSHALIT_DONE || answer.length > sizeof room) exit(1);
        if (number == 3) usleep(1000 * (PERIOD + PERIOD / 2));
        if (!write_all(answers, &length, sizeof length) || !write_all(answers, room, length)) exit(1);
        if (number == 3) exit(0);
    }
    exit(0);
}

/* What the referee knows of a prover: its pipes, the question that it was sent, for how long it has been waited for in this period, and how
 * much of its time is left. Both are in milliseconds. */
typedef struct Party {
    int questions, answers;
    int is_sent;
    uint32_t dispute, round;
    int waited, budget;
} Party;

static Party parties[PROVERS];

/* The log. */
static uint8_t log_bytes[MOST_LOG];
static size_t log_length;

static void put_number(uint8_t *place, uint32_t number) {
    for (int at = 0; at < 4; at++) place[at] = (uint8_t)(number >> (8 * at));
}

/* Appends an entry. The referee writes the 16 bytes before the answer itself. The number of the prover is that of the pipe on which the
 * answer came. The question is the one that was sent there last: a pipe keeps the order and repeats nothing, each question is sent once,
 * and one answer is taken for it. Over a transport that may repeat an answer or keep it back, let the sender name dispute and round. */
static void append(uint32_t prover, const CoshalitQuestion *asked, const uint8_t *answer, uint32_t length) {
    if (log_length + 16 + length > sizeof log_bytes) stop("the log is full");
    uint8_t *entry = log_bytes + log_length;
    put_number(entry, prover);
    put_number(entry + 4, asked->dispute);
    put_number(entry + 8, asked->round);
    put_number(entry + 12, length);
    if (length > 0) memcpy(entry + 16, answer, length);
    log_length += 16 + length;
}

static long now(void) {
    struct timespec time;
    clock_gettime(CLOCK_MONOTONIC, &time);
    return 1000L * time.tv_sec + time.tv_nsec / 1000000;
}

/* Waits until there is something to read, for at most so many milliseconds. */
static int is_readable(int from, int wait) {
    struct pollfd ready = {.fd = from, .events = POLLIN};
    for (long end = now() + wait;;) {
        long left = end - now();
        int found = poll(&ready, 1, left > 0 ? (int)left : 0);
        if (found >= 0) return found > 0;
        if (errno != EINTR) stop("poll fails");
    }
}

/* Takes so many milliseconds of a party's period and of its budget. */
static void take_time(Party *party, int time) {
    party->waited += time;
    party->budget -= time;
}

/* What a party sends as the answer to its question: how many bytes, or -1 for a pass. For each period without an answer a party passes
 * once; a period runs on while answers come that are none. One that is gone, or sends more than MOST_ANSWER bytes, passes at once. While it
 * is waited for, its budget for the whole match runs down, whatever it sends then. Once that is used up, nothing more is read of it. */
static long answer_of(Party *party, const CoshalitQuestion *asked, uint8_t *room) {
    if (party->budget <= 0) return -1;
    if (!party->is_sent || party->dispute != asked->dispute || party->round != asked->round) {
        write_all(party->questions, asked, sizeof *asked);
        party->is_sent = 1;
        party->dispute = asked->dispute;
        party->round = asked->round;
        party->waited = 0;
    }
    int left = PERIOD - party->waited, wait = party->budget < left ? party->budget : left;
    if (wait < 0) wait = 0;
    uint32_t length = 0;
    long begun = now();
    int is_ready = wait > 0 && is_readable(party->answers, wait);
    take_time(party, is_ready ? (int)(now() - begun) : wait);
    if (!is_ready) {
        party->waited = 0; /* the next period begins */
        return -1;
    }
    if (read_all(party->answers, &length, sizeof length) && length <= MOST_ANSWER && read_all(party->answers, room, length))
        return (long)length;
    /* What comes next would be read from its middle. */
    party->budget = 0;
    return -1;
}

static const char *kind_of(uint32_t kind) {
    return kind == 1 ? "its claim" : kind == 2 ? "a root" : kind == 3 ? "the proof of a step" : "several roots";
}

static const char *reply_of(uint32_t reply) {
    return reply == 1 ? "taken" : reply == 2 ? "faulty" : reply == 3 ? "spent" : "stale";
}

static int is_of_a_match(uint32_t status) {
    return status == COSHALIT_STILL_OPEN || status == COSHALIT_ACCEPTED || status == COSHALIT_NONE_LEFT || status == COSHALIT_COLLISION;
}

/* Drops what a party sent, which is no answer. It takes at least a millisecond of its time: else such answers, sent at once one after
 * another, could hold up a match for ever. */
static void drop_answer(uint32_t prover) {
    take_time(&parties[prover - 1], 1);
    printf("p%u sends what is no answer: dropped\n", prover);
}

/* Appends an entry of a prover that is asked: an answer that isn't empty, or a pass. A host may send all open questions at once, and append
 * as answers come. */
static void append_next(const CoshalitQuestion *question) {
    static uint8_t room[MOST_ANSWER];
    long length;
    while ((length = answer_of(&parties[question->prover - 1], question, room)) == 0)
        drop_answer(question->prover); /* an empty answer would be a pass */
    append(question->prover, question, room, length > 0 ? (uint32_t)length : 0);
}

static void begin(int number) {
    int down[2], up[2];
    if (pipe(down) != 0 || pipe(up) != 0) stop("there is no pipe");
    pid_t child = fork();
    if (child < 0) stop("there is no process");
    if (child == 0) {
        for (int other = 1; other < number; other++) {
            close(parties[other - 1].questions);
            close(parties[other - 1].answers);
        }
        close(down[1]);
        close(up[0]);
        prove(number, down[0], up[1]);
    }
    close(down[0]);
    close(up[1]);
    parties[number - 1] = (Party){.questions = down[1], .answers = up[0], .budget = BUDGET};
}

int main(void) {
    static uint8_t text[MOST_TEXT], report[MOST_TEXT + 64];
    CoshalitNumbers numbers = {.version = 1, .provers = PROVERS, .fan = 2, .patience = PATIENCE, .bound = BOUND};
    CoshalitQuestion asked[16], question = {0};
    CoshalitMatch found;
    uint32_t status;
    int tries = 0;
    size_t kept = 0; /* so many bytes of the log are known to be one */

    signal(SIGPIPE, SIG_IGN);
    /* This process has one thread, so a child may call malloc, and the library. */
    for (int number = 1; number <= PROVERS; number++) begin(number);

    /* The case is agreed on before the match: of it the referee needs the root of the start. */
    CoshalitAnswer start;
    do {
        start = coshalit_start_root((const uint8_t *)CASES[0], strlen(CASES[0]), numbers.start, sizeof numbers.start);
    } while (again(start.status, &tries));
    if (start.status != COSHALIT_DONE) stop("the case has no start");

    for (;;) {
        status = coshalit_match(&numbers, log_bytes, log_length, &found, asked, 16);
        if (again(status, &tries)) continue; /* nothing was written */
        tries = 0;
        if (status == COSHALIT_BAD_LOG && kept < log_length) {
            log_length = kept; /* what came last is no answer: take it back */
            drop_answer(question.prover);
            continue;
        }
        if (!is_of_a_match(status)) stop("the match can't be played");
        if (kept < log_length) {
            int is_pass = log_length == kept + 16;
            printf("dispute %u round %u p%u %s %s: %s\n", question.dispute, question.round, question.prover,
                   is_pass ? "passes on" : "gives", kind_of(question.kind), reply_of(found.reply));
        }
        kept = log_length; /* a host that has to survive a crash stores the entry here */
        if (status != COSHALIT_STILL_OPEN) break;
        question = asked[0];
        append_next(&question);
    }
    if (status == COSHALIT_ACCEPTED) printf("accepted: prover %u\n", found.accepted);

    CoshalitAnswer full, audited;
    do {
        full = coshalit_match_text(&numbers, log_bytes, log_length, text, sizeof text);
    } while (again(full.status, &tries));
    if (full.status != status || full.length > sizeof text) stop("there is no text");
    do {
        audited = coshalit_audit(text, full.length, report, sizeof report);
    } while (again(audited.status, &tries));
    printf("the audit of the text: %.*s", (int)audited.length, (const char *)report);
    for (int number = 1; number <= PROVERS; number++) {
        close(parties[number - 1].questions);
        close(parties[number - 1].answers);
    }
    while (wait(NULL) > 0 || errno == EINTR) {
    }
    return audited.status == COSHALIT_DONE ? 0 : 1;
}
