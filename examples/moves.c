/* Adds the moves to a plan's listing, for people and for examples/draw:
 *
 *     moves CLEARANCE RETRACT FEED START_X START_Y START_Z FIRST_ID < LISTING
 *
 * To build it: ./archive && cc -Iinclude examples/moves.c target/staticlib/libmandrikelo.a -o target/moves
 *
 * LISTING is what examples/plan prints; it is printed again, line by line, and its runs are the table. Then come the heights, the start
 * and a line a move: its id, its kind, where it starts and where it ends. Every number is printed with 17 digits, so that it can be
 * read back to the bit. A refusal is told as `WHO refused NUMBER`, and the status is then 1. */
#include <inttypes.h>
#include <stdio.h>
#include <stdlib.h>
#include <string.h>

#include "mandrikelo.h"

static const char *const KINDS[] = {"end", "rapid", "plunge", "cut", "retract"};

static void three(const double *x)
{
    printf(" %.17g %.17g %.17g", x[0], x[1], x[2]);
}

static void passed(const char *who, uint32_t refusal)
{
    if (refusal) {
        printf("%s refused %u\n", who, (unsigned)refusal);
        exit(1);
    }
}

/* The runs of a listing on standard input, which is printed again. */
static double *runs_of_listing(size_t *count)
{
    size_t room = 1024;
    double *runs = malloc(5 * room * sizeof *runs);
    char line[512];
    *count = 0;
    while (runs && fgets(line, sizeof line, stdin)) {
        fputs(line, stdout);
        if (strncmp(line, "run ", 4))
            continue;
        if (*count == room)
            runs = realloc(runs, 5 * (room *= 2) * sizeof *runs);
        if (!runs)
            break;
        char *at = line + 4;
        for (int k = 0; k < 5; k++)
            runs[5 * *count + k] = strtod(at, &at);
        ++*count;
    }
    if (!runs) {
        fprintf(stderr, "moves: no memory\n");
        exit(2);
    }
    return runs;
}

int main(int argc, char **argv)
{
    if (argc != 8) {
        fprintf(stderr, "moves CLEARANCE RETRACT FEED START_X START_Y START_Z FIRST_ID < LISTING\n");
        return 2;
    }
    double heights[3], start[3], position[3], end[3];
    for (int i = 0; i < 3; i++) {
        heights[i] = strtod(argv[1 + i], NULL);
        start[i] = strtod(argv[4 + i], NULL);
    }
    size_t count;
    double *runs = runs_of_listing(&count);
    uint64_t state[3], move[2];
    printf("heights");
    three(heights);
    printf("\nstart");
    three(start);
    printf("\n");
    passed("begin", mandrikelo_moves_begin(runs, 5 * count, heights, start, strtoull(argv[7], NULL, 10), position, state));
    for (;;) {
        double from[3] = {position[0], position[1], position[2]};
        passed("next", mandrikelo_moves_next(runs, 5 * count, heights, position, state, end, move));
        if (!move[0])
            break;
        printf("move %" PRIu64 " %s", move[1], KINDS[move[0]]);
        three(from);
        three(end);
        printf("\n");
    }
    return 0;
}
