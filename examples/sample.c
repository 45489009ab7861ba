/* A plate with a boss, from its mesh to its plan: cc -Iinclude examples/sample.c target/staticlib/libmandrikelo.a -o sample
 * It prints examples/sample.out, as examples/sample.cpp and examples/sample.py do. docs/USING.md says what the numbers mean. */
#include <stdio.h>
#include <stdlib.h>
#include "mandrikelo.h"

/* What every question and the plan are handed: the mesh, its index, and the marks. */
#define INDEX mesh, mesh_len, measures, sizes, starts, starts_len, members, members_len, boxes, mesh_len / 9 * 5, marks, mesh_len / 9

static double mesh[9 * 64], boxes[5 * 64], measures[6];
static size_t mesh_len, starts_len, members_len;
static uint32_t sizes[3], *starts, *members, *marks;

static void passed(const char *who, uint32_t refusal)
{
    if (refusal) {
        printf("%s: refused %u, %s\n", who, (unsigned)refusal, mandrikelo_refusal_text(refusal));
        exit(1);
    }
}

/* A face of four corners, as two triangles. */
static void face(const double p[4][3])
{
    static const int corners[6] = {0, 1, 2, 0, 2, 3};
    for (int i = 0; i < 6; i++)
        for (int k = 0; k < 3; k++)
            mesh[mesh_len++] = p[corners[i]][k];
}

/* The top and the four walls of a block. */
static void block(double x0, double y0, double x1, double y1, double low, double top)
{
    const double x[4] = {x0, x1, x1, x0}, y[4] = {y0, y0, y1, y1};
    face((const double[4][3]){{x0, y0, top}, {x1, y0, top}, {x1, y1, top}, {x0, y1, top}});
    for (int i = 0, j = 1; i < 4; i++, j = (j + 1) % 4)
        face((const double[4][3]){{x[i], y[i], low}, {x[j], y[j], low}, {x[j], y[j], top}, {x[i], y[i], top}});
}

int main(void)
{
    uint32_t bad[2], counts[3], on[3], refusal, stamp = 0;
    double high[1], tip[1], lengths[2];
    block(0, 0, 40, 30, 0, 10);
    block(15, 10, 25, 20, 10, 14);
    printf("version %u\n", (unsigned)mandrikelo_version());

    /* The index, in tables of the size that it needs. */
    size_t n = mesh_len / 9, rooms[2];
    passed("rooms", mandrikelo_rooms(mesh, mesh_len, 0, 3, rooms));
    starts_len = rooms[0], members_len = rooms[1];
    starts = calloc(starts_len, sizeof *starts);
    members = calloc(members_len, sizeof *members);
    marks = calloc(n, sizeof *marks);
    passed("build", mandrikelo_build(mesh, mesh_len, 0, 3, starts, starts_len, members, members_len, boxes, 5 * n, measures, sizes, bad));
    size_t cells = (size_t)sizes[1] * sizes[2];
    printf("%u triangles in %u by %u cells, %u members\n", (unsigned)sizes[0], (unsigned)sizes[1], (unsigned)sizes[2], (unsigned)starts[cells]);

    /* The stamp that comes back goes into the next question. */
    passed("height", mandrikelo_max_height(INDEX, stamp, 13, 15, 13, 15, 3, high, counts, on));
    passed("height", mandrikelo_max_height(INDEX, counts[1], 10, 15, 10, 15, 3, tip, counts, on));
    printf("disk of radius 3: %.3f beside the boss, %.3f off it\n", high[0], tip[0]);
    const double drill[4] = {0, 0, 3, 1.8 / 3}; /* its tip is 1.8 high at the radius 3: rise is the slope */
    passed("tip", mandrikelo_max_sections(INDEX, counts[1], 12, 15, drill, 4, tip, counts, on));
    printf("drill of radius 3, 1.8 high: tip %.3f beside the boss\n", tip[0]);
    stamp = counts[1];
    for (int lift = 0; lift < 2; lift++) {
        passed("chord", mandrikelo_bull_chord_clear(INDEX, stamp, 4, 15, 10.5, 10, 15, 10.5, 3, 1, lift, counts));
        printf("tip at 10.5 over the face at 10, lift %d: %s\n", lift, counts[0] == 1 ? "clear" : "blocked");
        stamp = counts[2];
    }

    /* The plan; a parameter out of its range first. Levels are at most n, and the runs' room is doubled after 13. */
    double parameters[7] = {0.001, 0.01, 0, 0.25, 0, 20, 30}, *levels = calloc(5 * n, sizeof *levels), *runs = NULL;
    size_t runs_len = 5;
    do {
        runs_len *= 2;
        runs = realloc(runs, runs_len * sizeof *runs);
        refusal = mandrikelo_plan(INDEX, parameters, 0, levels, 5 * n, runs, runs_len, lengths, counts);
        if (refusal == MANDRIKELO_REFUSED_PARAMETER)
            printf("stepover %.0f: refused %u\n", parameters[2], (unsigned)refusal), parameters[2] = 4;
    } while (refusal == MANDRIKELO_REFUSED_RUNS || refusal == MANDRIKELO_REFUSED_PARAMETER);
    passed("plan", refusal);
    printf("%u levels, %u rows, %u runs; cut %.3f, dropped %.3f\n", (unsigned)counts[0], (unsigned)counts[1], (unsigned)counts[2], lengths[0], lengths[1]);
    printf("first run from %.3f, %.3f to %.3f, %.3f at %.3f, its level at %.3f\n", runs[0], runs[1], runs[2], runs[3], runs[4], levels[0]);
    free(starts), free(members), free(marks), free(levels), free(runs);
    return 0;
}
