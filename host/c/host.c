/* The smallest complete host in C: opens a job, marks pins, steps to the end, lists the wires, asks for the shortfall.
 *
 *     host/prove library
 *     cc -I include host/c/host.c target/staticlib/libtalusdish.a -o target/host/c_host && target/host/c_host
 */
#include <stdio.h>
#include <stdlib.h>

#include "talusdish.h"

static uint8_t record[TALUSDISH_RECORD], scratch[TALUSDISH_SCRATCH], near_side[TALUSDISH_RECORD], listing[1 << 20];

/* The value of an accepted call; a refused one ends the program. */
static uint64_t accepted(const char *call, uint64_t word)
{
    if (TALUSDISH_CODE(word) != 0) {
        fprintf(stderr, "%s: refused %d\n", call, (int) TALUSDISH_CODE(word));
        exit(2);
    }
    return TALUSDISH_VALUE(word);
}

/* One more wire: 0 added, 1 all wired, 2 short. */
static uint64_t step(void)
{
    return accepted("step", talusdish_step(record, sizeof record, scratch, sizeof scratch));
}

int main(void)
{
    accepted("new", talusdish_new(record, sizeof record, 4, 4, 1, 2, 0));
    for (uint64_t row = 1; row <= 2; row++)
        for (uint64_t column = 1; column <= 2; column++)
            accepted("mark", talusdish_mark(record, sizeof record, row, column, 1));

    while (step() == 0)
        ;
    fwrite(listing, 1, accepted("listing", talusdish_listing(record, sizeof record, listing, sizeof listing)), stdout);

    uint64_t lacking = accepted("shortfall", talusdish_shortfall(record, sizeof record, scratch, sizeof scratch, near_side, sizeof near_side));
    printf("shortfall %d\n", (int) lacking);
    return ferror(stdout) || fflush(stdout) ? 3 : lacking != 0;
}
