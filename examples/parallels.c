/* A block goes up on parallels: cc -Iinclude examples/parallels.c target/staticlib/libmandrikelo.a -o parallels
 * It prints examples/parallels.out. The block is raised with its index and asked again; what was built is not built anew, and the index
 * is the same that a build of the raised block gives, which the last line has compared. */
#include <stdio.h>
#include <stdlib.h>
#include <string.h>
#include "mandrikelo.h"

enum { N = 10, STARTS = 17, MEMBERS = 400 };

struct index {
    double boxes[5 * N], measures[6];
    uint32_t starts[STARTS], members[MEMBERS], sizes[3];
};

static void passed(const char *who, uint32_t refusal)
{
    if (refusal) {
        printf("%s: refused %u, %s\n", who, (unsigned)refusal, mandrikelo_refusal_text(refusal));
        exit(1);
    }
}

/* The top and the four walls of a block of 40 by 30 by 10. */
static void block(double mesh[9 * N])
{
    static const int corners[5][4] = {{4, 5, 7, 6}, {0, 1, 5, 4}, {1, 3, 7, 5}, {3, 2, 6, 7}, {2, 0, 4, 6}}, two[6] = {0, 1, 2, 0, 2, 3};
    for (int i = 0; i < 30; i++) {
        int corner = corners[i / 6][two[i % 6]];
        mesh[3 * i] = corner & 1 ? 40 : 0;
        mesh[3 * i + 1] = corner & 2 ? 30 : 0;
        mesh[3 * i + 2] = corner & 4 ? 10 : 0;
    }
}

static double height(const double mesh[9 * N], const struct index *x)
{
    uint32_t marks[N] = {0}, counts[2], on[3];
    double found[1];
    passed("height", mandrikelo_max_height(mesh, 9 * N, x->measures, x->sizes, x->starts, STARTS, x->members, MEMBERS, x->boxes, 5 * N,
        marks, N, 0, 20, 15, 20, 15, 3, found, counts, on));
    return found[0];
}

int main(void)
{
    static double mesh[9 * N];
    static struct index built, afresh;
    uint32_t sizes[3], bad[2];
    double measures[6];
    block(mesh);
    passed("build", mandrikelo_build(mesh, 9 * N, 0, 3, built.starts, STARTS, built.members, MEMBERS, built.boxes, 5 * N, built.measures,
        built.sizes, bad));
    printf("on the table: %.3f\n", height(mesh, &built));

    /* An amount that would take a z over 1e6 is refused, and told at which number; mesh and boxes are as they were. */
    uint32_t refusal = mandrikelo_raise(mesh, 9 * N, built.boxes, 5 * N, built.measures, built.sizes, 999995, measures, sizes, bad);
    printf("raised by 999995: refused %u, number %u of triangle %u\n", (unsigned)refusal, (unsigned)bad[1], (unsigned)bad[0]);
    printf("on the table still: %.3f\n", height(mesh, &built));

    /* The header comes back in tables of its own; starts and members stay. */
    passed("raise", mandrikelo_raise(mesh, 9 * N, built.boxes, 5 * N, built.measures, built.sizes, 2.5, measures, sizes, bad));
    memcpy(built.measures, measures, sizeof measures);
    memcpy(built.sizes, sizes, sizeof sizes);
    printf("on parallels of 2.5: %.3f\n", height(mesh, &built));
    passed("build", mandrikelo_build(mesh, 9 * N, 0, 3, afresh.starts, STARTS, afresh.members, MEMBERS, afresh.boxes, 5 * N, afresh.measures,
        afresh.sizes, bad));
    printf("built afresh: %s\n", memcmp(&built, &afresh, sizeof built) ? "another index" : "the same index");
    return 0;
}
