/* A scan of three maps modulo 10, which do not commute: the maps up to each rank, the first one done first.
 *
 *     (cd crates/bridge && rt lib)
 *     cc -Ibindings/c bindings/c/example.c crates/bridge/out/libbridge.a -o example && ./example */
#include "gelvatos.h"

#include <stdio.h>

enum { RANKS = 3, RECORDS = 64 };

int main(void)
{
    static gelvatos_record records[RECORDS];
    const size_t members[RANKS] = {0, 1, 2};
    const uint32_t maps[RANKS * GELVATOS_AFFINE_WORDS] = {2, 1, 3, 4, 5, 6};
    uint32_t out[RANKS * GELVATOS_AFFINE_WORDS];
    const gelvatos_job job = {
        .collective = GELVATOS_SCAN,
        .operation = GELVATOS_AFFINE,
        .modulus = 10,
        .ranks = RANKS,
        .sweeps = 64,
    };
    gelvatos_report report;

    uint32_t status = gelvatos_over_log(&job, members, RANKS, maps, RANKS * GELVATOS_AFFINE_WORDS, records, RECORDS, out,
                                        RANKS * GELVATOS_AFFINE_WORDS, &report);
    if (status == GELVATOS_BAD_BLOCK) {
        fprintf(stderr, "refused %u rank %zu word %zu\n", status, report.rank, report.word);
        return 1;
    }
    if (status != GELVATOS_OK) {
        fprintf(stderr, "refused %u\n", status);
        return 1;
    }
    printf("scan rounds %u messages %zu\n", report.rounds, report.messages);
    for (size_t rank = 0; rank < RANKS; rank++) {
        const uint32_t *map = out + rank * GELVATOS_AFFINE_WORDS;
        printf("rank %zu: y -> %uy + %u modulo 10\n", rank, map[0], map[1]);
    }
    return 0;
}
