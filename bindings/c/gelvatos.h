/* Collective operations over a monoid, on up to 64 simulated ranks.
 *
 * The functions are proved: what each writes and answers, and when it refuses, is its contract. They allocate nothing,
 * keep nothing between calls, and never fail on any numbers; memory is lent by the caller. A pointer goes with the number of
 * the things that it points to; it must point to that many, aligned, even to none (so it is not null), and memory that
 * is written may not overlap other memory of the same call.
 *
 * The engine lies on the stack: with 128 KiB of it every operation ran among 64 ranks, and no proof says how much is enough.
 *
 * Link with libbridge.a, which `rt lib` makes in crates/bridge/out. */
#ifndef GELVATOS_H
#define GELVATOS_H

#include <stdbool.h>
#include <stddef.h>
#include <stdint.h>

#ifdef __cplusplus
extern "C" {
#endif

/* Collectives. The answer blocks, in rank order, and which rank gets what: */
enum gelvatos_collective {
    GELVATOS_BROADCAST = 0, /* every rank the root's input */
    GELVATOS_GATHER = 1,    /* the root all inputs */
    GELVATOS_REDUCE = 2,    /* the root the join of all; one block */
    GELVATOS_SCAN = 3,      /* each rank the join of the inputs up to its own */
    GELVATOS_EXSCAN = 4,    /* each rank the join of those before its own, rank 0 the unit */
    GELVATOS_ALLREDUCE = 5  /* every rank the join of all */
};

/* Operations, with the words of a block. Inputs are joined in rank order, whether the join commutes or not. */
enum gelvatos_operation {
    GELVATOS_AFFINE = 0, /* a, b: the map y -> a*y + b modulo a number of 2 to 2^31 - 1; the left one is done first */
    GELVATOS_TEXT = 1,   /* bytes, lines, words, edge: as gelvatos_measure gives them */
    GELVATOS_LEAST = 2   /* 1, value + 2^31, place: the least value, of equal ones the least place; or 0, 0, 0: none */
};

enum { GELVATOS_AFFINE_WORDS = 2, GELVATOS_TEXT_WORDS = 4, GELVATOS_LEAST_WORDS = 3 };

/* Statuses: 0, or why a call is refused. The first that applies is given. */
enum gelvatos_status {
    GELVATOS_OK = 0,
    GELVATOS_NO_COLLECTIVE = 60, /* no collective has that number */
    GELVATOS_NO_OPERATION = 61,  /* no operation has that number */
    GELVATOS_BAD_MODULUS = 1,    /* the modulus is out of range */
    GELVATOS_UNFIT = 20,         /* no ranks, or memory for no message: ranks not 1 to 64; members none, repeated or no
                                    ranks; fewer than 2 records; a depth not 4 to 64, or too few words for it */
    GELVATOS_BAD_ROOT = 21,      /* the root is no rank */
    GELVATOS_BAD_LENGTH = 22,    /* not one block of inputs for each rank */
    GELVATOS_BAD_BLOCK = 23,     /* a block is no element: the report tells the rank, the fault and the wrong word */
    GELVATOS_CROWDED = 25,       /* the memory does not hold the job's messages */
    GELVATOS_UNFINISHED = 42,    /* not finished within the sweeps allowed */
    GELVATOS_SHORT_OUT = 33      /* the answer has more words than `out`, or a block than was lent for it */
};

/* A job. The root counts for broadcast, gather and reduce, the modulus for GELVATOS_AFFINE. A sweep is a turn of each
 * rank and a carry for each ordered pair of ranks; 1024 are more than any job needs. */
typedef struct gelvatos_job {
    uint32_t collective;
    size_t root;
    uint32_t operation;
    uint32_t modulus;
    size_t ranks;
    size_t sweeps;
} gelvatos_job;

/* What a call tells beside its status. Every call writes all of it, zeros where there is nothing to tell. */
typedef struct gelvatos_report {
    uint32_t rounds; /* of a job that ended */
    size_t messages;
    size_t rank;    /* of the first block that was refused */
    uint32_t fault; /* 2 its length is wrong, 3 one of its words */
    size_t word;    /* the place of that word, from 0 */
} gelvatos_report;

/* A place for a message. `arrived` must be 0 or 1 when it is lent; nothing else matters then. */
typedef struct gelvatos_record {
    size_t from;
    size_t to;
    uint32_t tag;
    size_t length;
    uint32_t words[4];
    bool arrived;
} gelvatos_record;

/* Runs a job among the listed ranks of job->ranks, over a log of records (two to a message, at most 1536 are used): rank
 * i of the job is members[i]. On status 0 the answer blocks stand at the front of `out` and the rest of it is as it was;
 * on any other `out` is as it was. What the records hold afterwards is of no use. */
uint32_t gelvatos_over_log(const gelvatos_job *job,
                           const size_t *members, size_t members_len,
                           const uint32_t *inputs, size_t inputs_len,
                           gelvatos_record *records, size_t records_len,
                           uint32_t *out, size_t out_len,
                           gelvatos_report *report);

/* The same over boxes, one for each ordered pair of ranks, of `depth` slots each (four to a message): 4 words to a slot,
 * so 4 * ranks * ranks * depth words are used. */
uint32_t gelvatos_over_mailbox(const gelvatos_job *job,
                               const size_t *members, size_t members_len,
                               const uint32_t *inputs, size_t inputs_len,
                               size_t depth, uint32_t *words, size_t words_len,
                               uint32_t *out, size_t out_len,
                               gelvatos_report *report);

/* Writes the block of a text to the front of `block`, and nothing where that is shorter than four words. */
uint32_t gelvatos_measure(const uint8_t *text, size_t text_len, uint32_t *block, size_t block_len);

#ifdef __cplusplus
}
#endif

#endif
