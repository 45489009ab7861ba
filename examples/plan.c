/* Prints the plan of a job file's mesh, or of a binary STL file's, as a listing, for people and for examples/draw:
 *
 *     plan JOB x|y TOLERANCE LEVEL_TOLERANCE STEPOVER STOCK_TO_LEAVE STOCK_BOTTOM STOCK_TOP CUTTING_LENGTH
 *     plan PART.stl FLOOR RADIUS x|y TOLERANCE ..
 *
 * To build it: ./archive && cc -Iinclude examples/plan.c target/staticlib/libmandrikelo.a -o target/plan
 *
 * A line an entry: axis, floor, radius, parameters, then each triangle, level and run, the number of rows, the cut length and the
 * dropped length. Every number is printed with 17 digits, so that it can be read back to the bit. The job's questions are not used.
 * A refusal is told as `WHO refused NUMBER`, of a cut file also how many triangles stand whole before the cut, and in words on standard
 * error; the status is then 1. Of a mesh that was read all lines stand before it, so that a refused plan can be drawn. */
#include <stdio.h>
#include <stdlib.h>
#include <string.h>

#include "mandrikelo.h"

enum { MOST = 65536, CELLS = 1048576, MEMBERS = 16777216 };

static void *room(size_t entries, size_t size)
{
    void *p = calloc(entries + 1, size);
    if (!p) {
        fprintf(stderr, "plan: no memory\n");
        exit(2);
    }
    return p;
}

static void row(const char *name, const double *x, size_t n)
{
    printf("%s", name);
    for (size_t i = 0; i < n; i++)
        printf(" %.17g", x[i]);
    printf("\n");
}

static void rows(const char *name, const double *x, size_t many, size_t width)
{
    for (size_t i = 0; i < many; i++)
        row(name, x + i * width, width);
}

static void passed(const char *who, uint32_t refusal)
{
    if (refusal) {
        printf("%s refused %u\n", who, (unsigned)refusal);
        fprintf(stderr, "%s: %s\n", who, mandrikelo_refusal_text(refusal));
        exit(1);
    }
}

/* A file's first bytes, one more than the longest that is accepted has. */
static size_t read_file(const char *path, uint8_t *bytes, size_t most)
{
    FILE *file = fopen(path, "rb");
    if (!file) {
        perror(path);
        exit(2);
    }
    size_t length = fread(bytes, 1, most, file);
    fclose(file);
    return length;
}

/* The mesh of a job or of an STL file, and how many triangles it has; place gets floor and radius, the words behind the path. */
static uint32_t read_mesh(int argc, char **argv, double *mesh, double place[2])
{
    size_t most = 30 + 72 * (size_t)MOST + 40 * (size_t)MOST + 1;
    uint8_t *bytes = room(most, 1);
    size_t length = read_file(argv[1], bytes, most);
    uint32_t told[2] = {0, 0}, refusal;
    const char *who = argc == 12 ? "stl" : "job";
    if (argc == 12) {
        place[0] = strtod(argv[2], NULL);
        place[1] = strtod(argv[3], NULL);
        refusal = mandrikelo_read_stl(bytes, length, mesh, 9 * (size_t)MOST, told);
    } else {
        double *questions = room(5 * (size_t)MOST, sizeof *questions);
        refusal = mandrikelo_read_job(bytes, length, mesh, 9 * (size_t)MOST, questions, 5 * (size_t)MOST, place, told);
        free(questions);
    }
    if (refusal == 19)
        printf("%s cut behind %u whole triangles\n", who, (unsigned)told[0]);
    passed(who, refusal);
    free(bytes);
    return told[0];
}

int main(int argc, char **argv)
{
    size_t name = argc > 1 ? strlen(argv[1]) : 0;
    int stl = name > 4 && !strcmp(argv[1] + name - 4, ".stl");
    if (argc != (stl ? 12 : 10)) {
        fprintf(stderr, "plan JOB | PART.stl FLOOR RADIUS, then\n"
            "    x|y TOLERANCE LEVEL_TOLERANCE STEPOVER STOCK_TO_LEAVE STOCK_BOTTOM STOCK_TOP CUTTING_LENGTH\n");
        return 2;
    }
    char **asked = argv + argc - 8;
    double parameters[7];
    for (int i = 0; i < 7; i++)
        parameters[i] = strtod(asked[1 + i], NULL);
    uint32_t axis = !strcmp(asked[0], "x") ? 0 : !strcmp(asked[0], "y") ? 1 : 2;

    double *mesh = room(9 * (size_t)MOST, sizeof *mesh), place[2];
    uint32_t n = read_mesh(argc, argv, mesh, place);
    printf("axis %s\n", asked[0]);
    row("floor", place, 1);
    row("radius", place + 1, 1);
    row("parameters", parameters, 7);
    rows("triangle", mesh, n, 9);

    uint32_t *starts = room(CELLS + 1, sizeof *starts), *members = room(MEMBERS, sizeof *members);
    double *boxes = room(5 * (size_t)n, sizeof *boxes), measures[6];
    uint32_t sizes[3], bad[2];
    passed("build", mandrikelo_build(mesh, 9 * (size_t)n, place[0], place[1], starts, CELLS + 1, members, MEMBERS, boxes, 5 * (size_t)n,
        measures, sizes, bad));

    uint32_t *marks = room(n, sizeof *marks), counts[3], refusal;
    double *levels = room(5 * (size_t)n, sizeof *levels), *runs = NULL, lengths[2];
    size_t most = 1000;
    do { /* the plan writes zeros over the whole table, so it grows only as far as is asked for */
        free(runs);
        runs = room(5 * (most *= 2), sizeof *runs);
        refusal = mandrikelo_plan(mesh, 9 * (size_t)n, measures, sizes, starts, CELLS + 1, members, MEMBERS, boxes, 5 * (size_t)n, marks, n,
            parameters, axis, levels, 5 * (size_t)n, runs, 5 * most, lengths, counts);
    } while (refusal == MANDRIKELO_REFUSED_RUNS);
    passed("plan", refusal);
    rows("level", levels, counts[0], 5);
    rows("run", runs, counts[2], 5);
    printf("rows %u\n", (unsigned)counts[1]);
    row("cut", lengths, 1);
    row("dropped", lengths + 1, 1);
    return 0;
}
