/* The proved code of Coshalit for C, and for languages that call C: the referee of one step; the program's commands `audit`, `run` and
 * `list`, on bytes in memory; a match among your own parties; and the true answer of a prover of your own.
 *
 * Link two things: libcoshalit_c.a, which `rt lib` makes in crates/coshalit_c/out and which a release has in lib; and bindings/go/heap.c,
 * which gives the library memory by the program's own malloc, realloc and free:
 *
 *     cc -Iinclude my.c bindings/go/heap.c crates/coshalit_c/out/libcoshalit_c.a -o my
 *
 * heap.c has three functions, and says what they must do, for memory of another kind. They are to be linked once in a program: if another
 * library or package of the program brings them along, leave heap.c out. The library also takes memcpy, memmove, memset, and __udivti3 of
 * libgcc or compiler-rt, which `cc` links. It is built for Linux on x86-64.
 *
 * What else to read: docs/OPEN_MATCH.md for a host of matches, docs/COMMITMENTS.md for the bytes of answers and proofs, docs/PROGRAM.md for
 * the JSON text of a case, docs/TEXTS.md and docs/FAULTS.md for the texts that are written.
 *
 * CHANGELOG.md says what stays from one version to the next ('What stays'): within a major version each name, type, layout, promise and
 * number of this header. A minor version may add calls, and numbers of statuses where there was a refusal: take a status that you don't
 * know for a refusal.
 *
 * Every call:
 * - takes a slice as a pointer and a number of items. The items are bytes unless the type says otherwise. A slice of no items may have a
 *   null pointer; no other slice may. `numbers`, `found` and `pool` are single items: they are never null. A pointer that isn't null is
 *   aligned for its type. What is read may overlap with something else that is read. What is written (`next`, `room`, `root`, `found`,
 *   `asked`, `balances`, `pool`) overlaps with nothing.
 * - takes any items and any lengths, returns, and keeps nothing. The same arguments give the same answer, unless memory runs out.
 * - writes what is described at the call, and to no other byte of the caller.
 * - may run in several threads at the same time, if what each writes is its own and malloc may be called from them. Don't call it in a
 *   signal handler. Call it in a child after fork and before exec only if malloc may be called there: in general it may not if the parent
 *   had several threads.
 * - needs stack: give a thread 1 MiB or more.
 * - can't be stopped. To be able to stop it, run it in a process of its own, and end that process. To bound its time, bound what you give
 *   it. A call that takes a case reads its text and loads its image. coshalit_run, coshalit_roots_at and coshalit_answer run its program
 *   for at most as many steps as its bound says. coshalit_start_root, coshalit_roots_at and coshalit_answer make a tree of all pages of the
 *   image: up to minutes and tens of gigabytes for an image whose loads share bytes of the file, also with a tiny bound. All else takes
 *   time by the lengths of what is given. docs/COSTS.md has each call ('What a call of the library costs').
 * - takes memory by the three functions of heap.c only. In C bound it there, or by a limit on the process. If a function fails, the status
 *   is COSHALIT_OUT_OF_MEMORY. Then the call has given back what it took and has written nothing: the same call may be made again.
 *
 * A room of this many bytes always suffices (by calculation, not proved), where n is the length of the output of the case's run, which is
 * at most its bound:
 *
 *     coshalit_audit         the length of the text, and 64
 *     coshalit_run           2 n + 64
 *     coshalit_list          3 times the length of the case, and 64
 *     coshalit_match_text    4 times the length of the log, and 1,024
 *     coshalit_start_root    64
 *     coshalit_roots_at      32 for each step, and 64
 *     coshalit_answer        n + 2,948
 *
 * If n isn't known begin with 4,096 bytes: `length` says how many are needed. Then the second call does all the work again.
 */
#ifndef COSHALIT_H
#define COSHALIT_H

#include <stddef.h>
#include <stdint.h>

#ifdef __cplusplus
extern "C" {
#endif

/* Of this header: major * 10000 + minor * 100 + patch; that of the library is coshalit_version(). */
#define COSHALIT_VERSION 10000

/* How many bytes a root has. */
#define COSHALIT_ROOT_BYTES 32

/* What coshalit_check_step returns. */
#define COSHALIT_LEADS 0        /* the proof leads, to the root that is now in `next` */
#define COSHALIT_NOT_OPEN 1     /* its parts don't open the root, or an opening doesn't open the root of its tree */
#define COSHALIT_WRONG_SHAPE 2  /* it is of another version, or an opening is missing, or is there and not called for */
#define COSHALIT_NO_PROOF 3     /* the bytes are the wire form of no proof of a step */
#define COSHALIT_WRONG_LENGTH 4 /* `root` or `next` hasn't 32 bytes */

/* Statuses. Those of a command are the exit statuses of the program. */
#define COSHALIT_DONE 0           /* the text is confirmed, or the case was run or listed, or the roots or the answer are the text */
#define COSHALIT_BAD_CASE 3       /* the bytes are no case, or one without a listing: `fault case R ..` (docs/FAULTS.md has each R) */
#define COSHALIT_BAD_IMAGE 4      /* the image of the case can't be loaded: `fault image R ..` */
#define COSHALIT_AUDIT_REFUSED 8  /* the text is refused: `refused LINE CAUSE`, or `fault text R ..` if it can't be read */
#define COSHALIT_OUT_OF_MEMORY 9  /* memory ran out: nothing is written, and a `length` is 0. The same call may be made again */
#define COSHALIT_TOO_LONG 12      /* more than 16,777,216 bytes: `fault too long` */
#define COSHALIT_NOT_ASKED 2      /* no match of the case asks this, or a step is above its bound: `fault usage` */
#define COSHALIT_ACCEPTED 0       /* a match: it is over, and a claim is accepted */
#define COSHALIT_NONE_LEFT 10     /* a match: it is over, and nobody is left */
#define COSHALIT_COLLISION 11     /* a match: it is over, and two different strings with one digest were shown */
#define COSHALIT_STILL_OPEN 13    /* a match: a question is open */
#define COSHALIT_BAD_NUMBERS 14   /* a match: one of its numbers, or the stake, is beyond its limit */
#define COSHALIT_BAD_LOG 15       /* a match: the bytes are no log */

/* What a call answers that writes to a `room`. It is returned by value: 16 bytes where `size_t` has 8. What is written is called the text,
 * also where it isn't in letters: a root has 32 bytes, and an answer is a wire form. */
typedef struct CoshalitAnswer {
    uint32_t status; /* one of those above */
    size_t length;   /* how many bytes the text has, which may be more than there was room for */
} CoshalitAnswer;

/* The version of the library, written as in COSHALIT_VERSION. A program that was compiled with this header may use each library that has
 * the same major version and a version not below COSHALIT_VERSION. */
uint32_t coshalit_version(void);

/* The ruling on the proof of one step of the machine, from a root on which both sides agree, by SHA-256. Step s leads from state s, the
 * state after s steps, to state s + 1.
 *
 * `version` is that of the commitment, 1, 2 or 3; with any other number no proof has the right shape. `root` has 32 bytes. `wire` is the
 * proof as it is sent. As a form that is read, a proof has at most 1,999 bytes in version 1, 2,400 in version 2 and 2,948 in version 3. One
 * that leads has at most 1,999, 2,236 and 2,272. More than 2,948 bytes are no proof, and a proof of another version than `version` has the
 * wrong shape. The next root, of 32 bytes, is written to `next` if the proof leads; otherwise `next` stays as it was. The call takes no
 * memory from malloc.
 *
 * Proved: it returns 4 if and only if a length is wrong. With right lengths it returns 3 if and only if no proof has these bytes, and 0
 * if and only if all conditions of the proof with these bytes hold from this root; then the root that is written is made of its parts
 * after the step. It returns 1 or 2 by the first condition that fails. */
uint32_t coshalit_check_step(uint32_t version, const uint8_t *root, size_t root_length, const uint8_t *wire, size_t wire_length,
                             uint8_t *next, size_t next_length);

/* Audits a full text, as `judge --full` writes it: COSHALIT_DONE and `confirmed VERDICT`, or COSHALIT_AUDIT_REFUSED and where and why it
 * is refused, or COSHALIT_TOO_LONG.
 *
 * The answer's text is empty or ends in a newline, and no zero byte follows it. Its first `room_length` bytes are written to `room`, and
 * nothing after the text. If `length` is more than `room_length`, the rest is missing: call again with a room of `length` bytes, which does
 * all the work again. The status and the text are those of the program's command `audit` on these bytes (proved).
 *
 * What `confirmed` doesn't say:
 * - that the text is of your case. So compare line 1. The root after `start` has to be that of coshalit_start_root, and version and bound
 *   those of the case. The number of provers, the patience and the fan have to be those that you agreed on; they needn't be the case's;
 * - anything at all if line 1 has another digest than `digest sha256`: refuse such a text;
 * - that anybody sent these answers, or that a prover whose answer is missing had the time for it. */
CoshalitAnswer coshalit_audit(const uint8_t *text, size_t text_length, uint8_t *room, size_t room_length);

/* Runs the program of a case, a JSON text (docs/PROGRAM.md): COSHALIT_DONE and the line of its status and output at the bound, or
 * COSHALIT_BAD_CASE, COSHALIT_BAD_IMAGE or COSHALIT_TOO_LONG and why. It takes as long as the run, which the case bounds. The answer is as
 * above, by the command `run`. A case needs all its keys for each call that takes one: `provers` and `patience` too, though they change no
 * answer of this header. */
CoshalitAnswer coshalit_run(const uint8_t *json, size_t json_length, uint8_t *room, size_t room_length);

/* Lists the image of a case as assembly text, a line for each word: statuses as of coshalit_run. The answer is as above, by the command
 * `list`. */
CoshalitAnswer coshalit_list(const uint8_t *json, size_t json_length, uint8_t *room, size_t room_length);

/* A MATCH AMONG YOUR OWN PARTIES. You own a log of posts; the library plays it. docs/OPEN_MATCH.md has a host's loop, and what each status
 * asks it to do.
 *
 * A log is a list of entries. All numbers have their least byte first:
 *
 *     entry = prover(4) dispute(4) round(4) length(4) answer(length)
 *
 * `prover` counts from 1; `dispute` and `round` name the question; the answer is a wire form (docs/COMMITMENTS.md), and with the length
 * 0 the entry is a pass. So don't append an empty answer that somebody sends: it would be a pass in the sender's name. Entries of several
 * open questions may come in any order. An entry that doesn't name its prover's open question is stale, and changes nothing. The reply says
 * so once you have tried it: take it back, or keep it if logs may grow. After the end of a match each entry is stale.
 *
 * WHOEVER MAY APPEND AN ENTRY WITH A PROVER'S NUMBER CAN LOSE THAT PROVER'S MATCH: authenticate senders, and write `prover` and `length`
 * yourself. Never give an answer the number of the question that is open now: it may be a late answer to the question before. Take the
 * number that the sender signed, or that of the question that you sent. */

/* The numbers by which a match is played. The digest is SHA-256. `version`, `bound` and `start` are those of the case that the parties
 * agreed on; `provers`, `fan` and `patience` are the match's own. If the first three are others than the case's, nothing is refused, but
 * what is proved isn't about your case: all proofs may be refuted, and each prover that answers by the case may lose. */
typedef struct CoshalitNumbers {
    uint32_t version;  /* of the commitments, 1 to 3 */
    uint32_t provers;  /* 1 to 16 */
    uint32_t fan;      /* into how many parts a round cuts its interval at most, 2 to 16 */
    uint32_t patience; /* how many passes a question allows, 0 to 100 */
    uint64_t bound;    /* how many steps the run has, 1 to 4,294,967,295 */
    uint8_t start[COSHALIT_ROOT_BYTES]; /* the root of the state at step 0 */
} CoshalitNumbers;

/* What a question asks for, its `kind`. */
#define COSHALIT_ASKS_CLAIM 1 /* the claim */
#define COSHALIT_ASKS_ROOT 2  /* the root of the state after `low` steps */
#define COSHALIT_ASKS_PROOF 3 /* the proof of step `low`, which leads from state `low` to state `low` + 1, in any version */
#define COSHALIT_ASKS_ROOTS 5 /* the roots at the cuts of an interval */

/* What a prover is asked. coshalit_answer takes `kind`, `low`, `high` and `parts` as they are here. A question has no wire form: send its
 * numbers as text, or each in a fixed width with its least byte first, and not the struct. */
typedef struct CoshalitQuestion {
    uint32_t prover;         /* from 1 */
    uint32_t dispute, round; /* the question's number; dispute 0 is the claim */
    uint32_t kind;           /* what it asks for, one of the above */
    uint32_t parts;          /* of several roots: in how many parts the interval is cut; else 0 */
    uint32_t passes;         /* how often the prover has passed on this question */
    uint64_t low, high;      /* the step of the root or of the proof, and 0; or the interval's two ends; of the claim 0 and 0 */
} CoshalitQuestion;

/* The reply to a post. By COSHALIT_FAULTY or COSHALIT_SPENT its prover is out: by a claim at once, in a dispute as soon as the other side
 * of the round is settled. */
#define COSHALIT_NO_POST 0 /* the log is empty */
#define COSHALIT_TAKEN 1   /* the answer or the pass counts, also for a proof that will be refuted */
#define COSHALIT_FAULTY 2  /* the answer is of another kind than asked, a list of another length, or an unsound claim */
#define COSHALIT_SPENT 3   /* a pass more than the patience allows */
#define COSHALIT_STALE 4   /* the question isn't open for the prover: nothing changes */

/* Why bytes are no log. */
#define COSHALIT_CUT 1       /* they end within an entry */
#define COSHALIT_NO_PROVER 2 /* no prover has the number */
#define COSHALIT_NO_ANSWER 3 /* an answer's bytes are no wire form */

/* What a match has come to after a log, or where the bytes are no log. */
typedef struct CoshalitMatch {
    uint32_t reply;    /* to the last post, one of the above */
    uint32_t accepted; /* the number of the accepted prover, or 0. Its claim in the log has the accepted status and output */
    uint32_t asked;    /* how many provers have an open question */
    uint32_t cause;    /* of no log, one of the above; else 0 */
    uint32_t rule;     /* of COSHALIT_NO_ANSWER: the number of the fault in the table of docs/COMMITMENTS.md, 'Wire forms'; else 0 */
    uint64_t at;       /* of no log: where the first entry begins that is none; the log up to there is one. Else 0 */
} CoshalitMatch;

/* What the match of these numbers has come to after a log. COSHALIT_ACCEPTED, COSHALIT_NONE_LEFT or COSHALIT_COLLISION: it is over.
 * COSHALIT_STILL_OPEN: the open questions are in `asked`, in the order of their provers, as many as there is room for; room for 16 is
 * always enough. `found` says the rest. COSHALIT_BAD_LOG: `found` says where and why, and nothing is written to `asked`.
 * COSHALIT_BAD_NUMBERS, COSHALIT_OUT_OF_MEMORY: nothing is written.
 *
 * Proved: what is found is that of the match after the posts of the log, and the place of a bad log is the first. Let `start` be the root
 * of a valid state without output, in the match's version, and let there be a prover in whose name only true answers of the run from there
 * are posted, and passes within the patience. Whatever the others post, in whatever order, that prover is never out; and if the match is
 * over, it accepts the status and the output of the run, or shows two different strings with one digest. */
uint32_t coshalit_match(const CoshalitNumbers *numbers, const uint8_t *log, size_t log_length, CoshalitMatch *found,
                        CoshalitQuestion *asked, size_t asked_length);

/* The full text of a match that is over: the status is that of coshalit_match, and the text is as of coshalit_audit. A text is written only
 * with the status 0, 10 or 11; with any other `length` is 0, and nothing is written. The text is one that coshalit_audit confirms (proved),
 * if it has at most 16,777,216 bytes. By calculation, not proved, a log of less than 4,000,000 bytes has such a text. The last line of a
 * text whose match accepts a claim has the accepted status and output: `accept STATUS output BYTES`. */
CoshalitAnswer coshalit_match_text(const CoshalitNumbers *numbers, const uint8_t *log, size_t log_length,
                                   uint8_t *room, size_t room_length);

/* What the provers of a match that is over have of their stakes, if each put down `stake`, by the settlement of the ledger: the stake of a
 * prover that is out goes to the pool if it is out by its claim; if a dispute put it out, to the other side, or to the pool if both sides
 * are out (docs/GAME.md, 'Deposits').
 *
 * The balances are written to `balances`, in the order of the provers, as many as there is room for; room for 16 is always enough. What
 * comes after them in `balances` stays as it was. What is in the pool is written to `pool`. The status is that of coshalit_match; it is
 * COSHALIT_BAD_NUMBERS also if `stake` is above 1,000,000,000. Only with the status 0, 10 or 11 is anything written. */
uint32_t coshalit_match_balances(const CoshalitNumbers *numbers, uint64_t stake, const uint8_t *log, size_t log_length,
                                 uint64_t *balances, size_t balances_length, uint64_t *pool);

/* The same by the settlement that burns: each prover that isn't out keeps its stake, and each other stake is burned. What is burned is
 * written to `pool`. */
uint32_t coshalit_match_burned(const CoshalitNumbers *numbers, uint64_t stake, const uint8_t *log, size_t log_length,
                               uint64_t *balances, size_t balances_length, uint64_t *pool);

/* A PROVER OF YOUR OWN.
 *
 * Nothing is kept between two calls: each of coshalit_roots_at and coshalit_answer loads the image, makes a tree of all its pages, and runs
 * the program anew from step 0 up to the last step that it needs. A prover answers up to 34 questions for its claim and one dispute with
 * the fan 2. So if runs are long, fetch the roots of many steps by one coshalit_roots_at, and answer root questions from them: the wire
 * form of a root is the byte 2 and its 32 bytes, and that of several roots is the byte 5, their number in one byte, and the roots. */

/* The root of the state in which the run of a case starts, by SHA-256: COSHALIT_DONE and its 32 bytes as the text. It is the `start` of
 * a match of this case, and ties a full text to the case (see coshalit_audit). A refusal is as of coshalit_run, and then `room` has the
 * first bytes of its text and no root: check the status first, also if the room is the `start` of your numbers. It makes a tree of all
 * pages of the image, and runs nothing. */
CoshalitAnswer coshalit_start_root(const uint8_t *json, size_t json_length, uint8_t *room, size_t room_length);

/* The roots of the states of a case's run after these many steps each, in the case's version and by SHA-256: COSHALIT_DONE and 32 bytes
 * for each, in the order of `steps`, as the text. The steps may have any order, and are reached by one run. A step above the case's
 * bound is COSHALIT_NOT_ASKED; other refusals are as of coshalit_run. It makes a tree of all pages of the image, then runs the program up
 * to the last of the steps, and digests between two of the steps what has changed. */
CoshalitAnswer coshalit_roots_at(const uint8_t *json, size_t json_length, const uint64_t *steps, size_t count,
                                 uint8_t *room, size_t room_length);

/* The true answer of a case's own run to a question, by SHA-256: COSHALIT_DONE and its wire form as the text. `kind`, `low`, `high` and
 * `parts` are those of a CoshalitQuestion. COSHALIT_NOT_ASKED: no match of the case asks this; other refusals are as of coshalit_run.
 * It makes a tree of all pages of the image, and then runs the program up to the step that is asked; to the bound for the claim. The
 * case's fan, patience and provers change no answer.
 *
 * By calculation, not proved, a true answer has at most 2,948 bytes, or 122 + n for a claim whose output has n bytes.
 *
 * Proved: the answer is the plain answer of the run of the case, which is a true one. And by one law (`given_answers_are_right`): take a
 * match with the case's version, its bound and the root that coshalit_start_root gives, and any log. Let there be a prover such that each
 * entry in its name that isn't stale is what this call gives on the question that is open, or a pass within the patience. That prover is
 * never out, whatever the others post. If the match is over, it accepts the status and the output of the case's run, or shows two different
 * strings with one digest. No question that such a match asks is refused, except that memory may run out. The law supposes a valid start:
 * if coshalit_start_root gives a root, the start is valid. */
CoshalitAnswer coshalit_answer(const uint8_t *json, size_t json_length, uint32_t kind, uint64_t low, uint64_t high, uint32_t parts,
                               uint8_t *room, size_t room_length);

/* What coshalit_claim_root returns, in addition to COSHALIT_WRONG_LENGTH (`root` hasn't 32 bytes) and COSHALIT_OUT_OF_MEMORY. */
#define COSHALIT_SOUND 0    /* the claim is sound, and its root is in `root` */
#define COSHALIT_UNSOUND 1  /* its length or its chain isn't that of its output */
#define COSHALIT_NO_CLAIM 3 /* the bytes are the wire form of no claim */

/* The root of a claim, from its wire form, by which a match compares claims. Unless it is COSHALIT_SOUND, `root` stays as it was. */
uint32_t coshalit_claim_root(const uint8_t *wire, size_t wire_length, uint8_t *root, size_t root_length);

#ifdef __cplusplus
}
#endif

#endif
