/* Tries every range from both sides at the C door: the last number that is accepted, and the next one, with the refusal that it gets.
 *
 *     cc -Iinclude examples/ranges.c target/staticlib/libmandrikelo.a -lm -o ranges && ./ranges
 *
 * It prints a line for each trial that went wrong; its last line counts what passed and failed. What is handed over stands in file-level
 * tables, with good numbers in them; a trial changes one of them, calls, and puts it back. */
#include <math.h>
#include <stdio.h>
#include <stdlib.h>
#include <string.h>

#include "mandrikelo.h"

enum { MOST = 65536, CELLS = 1048576, MEMBERS = 16777216, ROOM = 1000 };

static unsigned passed, failed;
static const char *part = "";

static void expect(const char *what, uint32_t wanted, uint32_t given)
{
    if (wanted == given) {
        passed++;
        return;
    }
    failed++;
    printf("%s: %s: %u (%s), not %u\n", part, what, (unsigned)given, mandrikelo_refusal_text(given), (unsigned)wanted);
}

/* One number: both ends of its range pass, -0.0 like 0, and the next f64 on either side, both infinities and a NaN are refused. */
static void range(const char *name, double *place, double low, double high, uint32_t refusal, uint32_t (*call)(void))
{
    const double kept = *place, good[] = {low, high, low == 0 ? -0.0 : low};
    const double bad[] = {nextafter(low, -INFINITY), nextafter(high, INFINITY), -INFINITY, INFINITY, NAN};
    char what[100];
    for (size_t i = 0; i < sizeof good / sizeof *good; i++) {
        *place = good[i];
        snprintf(what, sizeof what, "%s = %.17g", name, good[i]);
        expect(what, 0, call());
    }
    for (size_t i = 0; i < sizeof bad / sizeof *bad; i++) {
        *place = bad[i];
        snprintf(what, sizeof what, "%s = %.17g", name, bad[i]);
        expect(what, refusal, call());
    }
    *place = kept;
}

/* A length: it passes, and the lengths beside it get these refusals. */
static void length(const char *name, size_t *place, size_t good, uint32_t under, uint32_t over, uint32_t (*call)(void))
{
    const size_t kept = *place;
    char what[100];
    for (int by = -1; by <= 1; by++) {
        *place = good + (size_t)by;
        snprintf(what, sizeof what, "%s = %zu", name, *place);
        expect(what, by < 0 ? under : by > 0 ? over : 0, call());
    }
    *place = kept;
}

/* ---- the index: two triangles, a square of 8 at the height 10 */

static const double SQUARE[18] = {0, 0, 10, 8, 0, 10, 8, 8, 10, 0, 0, 10, 8, 8, 10, 0, 8, 10};
static double *mesh, *boxes, measures[6];
static size_t mesh_len = 18, starts_len = ROOM, members_len = ROOM, boxes_len = 10, marks_len = 2;
static uint32_t *starts, *members, *marks, sizes[3], bad[2], stamp;
static double ground, reach = 2;

static uint32_t build(void)
{
    return mandrikelo_build(mesh, mesh_len, ground, reach, starts, starts_len, members, members_len, boxes, boxes_len, measures, sizes, bad);
}

static void the_build(void)
{
    static const char *const COORDINATE[9] = {"ax", "ay", "az", "bx", "by", "bz", "cx", "cy", "cz"};
    part = "build";
    range("floor", &ground, -1e6, 1e6, 2, build);
    range("r", &reach, 0, 1e6, 2, build);
    for (size_t k = 0; k < 9; k++) {
        range(COORDINATE[k], mesh + 9 + k, -1e6, 1e6, 4, build);
        mesh[9 + k] = 2e6;
        expect("a coordinate of 2e6", 4, build());
        expect("bad tells the triangle", 1, bad[0]);
        expect("bad tells the number", (uint32_t)k, bad[1]);
        mesh[9 + k] = SQUARE[9 + k];
    }
    boxes_len = 5;
    length("mesh_len", &mesh_len, 9, 1, 1, build);
    mesh_len = 0;
    expect("an empty mesh with a box", 23, build());
    boxes_len = 0;
    expect("an empty mesh", 3, build());
    mesh_len = 18, boxes_len = 10;
    length("boxes_len", &boxes_len, 10, 23, 23, build);
    expect("good", 0, build());
    size_t cells = (size_t)sizes[1] * sizes[2], listed = starts[cells];
    length("starts_len", &starts_len, cells + 1, 5, 0, build);
    length("members_len", &members_len, listed, 6, 0, build);
    /* The most triangles, and one more. */
    for (size_t i = 2; i <= MOST; i++)
        memcpy(mesh + 9 * i, SQUARE, 9 * sizeof *mesh);
    starts_len = CELLS + 1;
    members_len = MEMBERS;
    mesh_len = 9 * ((size_t)MOST + 1), boxes_len = 5 * ((size_t)MOST + 1);
    expect("65,537 triangles", 1, build());
    /* Each of them covers all 16 by 16 cells: the most members there may be; with 17 by 17 there are too many for any room. */
    mesh_len = 9 * (size_t)MOST, boxes_len = 5 * (size_t)MOST;
    reach = 4 * 8 / 15.5;
    expect("16,777,216 members", 0, build());
    expect("its columns", 16, sizes[1]);
    expect("its rows", 16, sizes[2]);
    expect("its members", MEMBERS, starts[256]);
    members_len = MEMBERS + 1;
    reach = 4 * 8 / 16.5;
    expect("18,939,904 members", 6, build());
    /* What docs/USING.md says of starts: with r 0 there are the most cells. The triangles behind the square are small. */
    static const size_t ROOTS[] = {1, 2, 3, 5, 7, 12, 100, 181, 255, 256};
    for (size_t i = 2; i < MOST; i++)
        memcpy(mesh + 9 * i, (const double[9]){1, 1, 1, 1.001, 1, 1, 1, 1.001, 1}, 9 * sizeof *mesh);
    reach = 0;
    for (size_t i = 0; i < sizeof ROOTS / sizeof *ROOTS; i++)
        for (size_t n = ROOTS[i] * ROOTS[i] - (i > 1); n <= ROOTS[i] * ROOTS[i] + 1 && n <= MOST; n++) {
            size_t k = (size_t)mandrikelo_root((double)n);
            mesh_len = 9 * n, boxes_len = 5 * n;
            starts_len = (k + 1) * (k + 1) + 1;
            expect("starts by the page's rule", 0, build());
        }
    mesh_len = 18, boxes_len = 10, starts_len = members_len = ROOM, reach = 2;
    expect("good again", 0, build());
}

/* ---- the rooms, and whether an index is the one of its mesh */

static size_t rooms[2];

static uint32_t ask_rooms(void)
{
    return mandrikelo_rooms(mesh, mesh_len, ground, reach, rooms);
}

static void the_rooms(void)
{
    part = "rooms";
    range("floor", &ground, -1e6, 1e6, 2, ask_rooms);
    range("r", &reach, 0, 1e6, 2, ask_rooms);
    for (size_t k = 0; k < 18; k++)
        range("a coordinate", mesh + k, -1e6, 1e6, 4, ask_rooms);
    length("mesh_len", &mesh_len, 9, 1, 1, ask_rooms);
    expect("good", 0, ask_rooms());
    starts_len = rooms[0], members_len = rooms[1];
    length("starts_len of a build", &starts_len, rooms[0], 5, 0, build);
    length("members_len of a build", &members_len, rooms[1], 6, 0, build);
    mesh_len = 0;
    expect("an empty mesh", 3, ask_rooms());
    expect("no starts then", 0, (uint32_t)rooms[0]);
    expect("no members then", 0, (uint32_t)rooms[1]);
    /* The most triangles and one more; the most members and too many. */
    for (size_t i = 2; i <= MOST; i++)
        memcpy(mesh + 9 * i, SQUARE, 9 * sizeof *mesh);
    mesh_len = 9 * ((size_t)MOST + 1);
    expect("65,537 triangles", 1, ask_rooms());
    mesh_len = 9 * (size_t)MOST;
    reach = 4 * 8 / 15.5;
    expect("16,777,216 members", 0, ask_rooms());
    expect("its starts", 257, (uint32_t)rooms[0]);
    expect("its members", MEMBERS, (uint32_t)rooms[1]);
    reach = 4 * 8 / 16.5;
    expect("18,939,904 members", 6, ask_rooms());
    expect("no starts then", 0, (uint32_t)rooms[0]);
    mesh_len = 18, starts_len = members_len = ROOM, reach = 2;
    expect("good again", 0, build());
}

static uint32_t check(void)
{
    return mandrikelo_check_index(mesh, mesh_len, measures, sizes, starts, starts_len, members, members_len, boxes, boxes_len);
}

/* A number of an index: as it is it passes, and either neighbour and its negative are told by 7. */
static void exact(const char *name, double *place)
{
    const double kept = *place, other[] = {nextafter(kept, -INFINITY), nextafter(kept, INFINITY), -kept, NAN};
    for (size_t i = 0; i < sizeof other / sizeof *other; i++) {
        *place = other[i];
        expect(name, 7, check());
    }
    *place = kept;
    expect(name, 0, check());
}

/* A whole number of an index: one less and one more are told by 7. */
static void exactly(const char *name, uint32_t *place)
{
    --*place;
    expect(name, 7, check());
    *place += 2;
    expect(name, 7, check());
    --*place;
    expect(name, 0, check());
}

static void the_check(void)
{
    static const char *const MEASURE[6] = {"origin x", "origin y", "cell", "floor", "eps", "r"};
    part = "check_index";
    size_t cells = (size_t)sizes[1] * sizes[2], listed = starts[cells];
    for (size_t k = 0; k < 6; k++)
        if (k != 3 && k != 5)
            exact(MEASURE[k], measures + k);
    range("floor", measures + 3, -1e6, 1e6, 7, check);
    for (size_t k = 0; k < 3; k++)
        exactly("sizes", sizes + k);
    for (size_t k = 0; k <= cells; k++)
        exactly("starts", starts + k);
    for (size_t k = 0; k < listed; k++)
        exactly("members", members + k);
    for (size_t k = 0; k < 10; k++)
        exact("boxes", boxes + k);
    length("starts_len", &starts_len, cells + 1, 7, 0, check);
    length("members_len", &members_len, listed, 7, 0, check);
    length("boxes_len", &boxes_len, 10, 23, 23, check);
    length("mesh_len", &mesh_len, 18, 1, 1, check);
    mesh_len = 27;
    expect("a triangle more", 23, check());
    mesh_len = 0, boxes_len = 0;
    expect("an empty mesh", 7, check());
    mesh_len = 9 * ((size_t)MOST + 1), boxes_len = 5 * ((size_t)MOST + 1);
    expect("65,537 triangles", 1, check());
    mesh_len = 18, boxes_len = 10;
    /* The part moved without its index, which every question lets pass; and with it. */
    for (size_t k = 0; k < 18; k += 3)
        mesh[k] += 8;
    expect("a part moved in x", 7, check());
    memcpy(mesh, SQUARE, sizeof SQUARE);
    for (size_t k = 2; k < 18; k += 3)
        mesh[k] += 8;
    expect("a part moved in z", 7, check());
    memcpy(mesh, SQUARE, sizeof SQUARE);
    double raised[6];
    uint32_t raised_sizes[3];
    expect("raised", 0, mandrikelo_raise(mesh, mesh_len, boxes, boxes_len, measures, sizes, 8, raised, raised_sizes, bad));
    expect("with the old header", 7, check());
    memcpy(measures, raised, sizeof measures);
    expect("a part raised with its index", 0, check());
    memcpy(mesh, SQUARE, sizeof SQUARE);
    expect("good again", 0, build());
}

/* ---- questions; q holds the numbers of the one that is tried */

static double q[9], tool[4 * 33], height[1];
static size_t tool_len = 4;
static uint32_t counts[3], touched[3];

/* Whether a question begins with wiped marks and the stamp 0. */
static bool fresh = true;

static void begun(void)
{
    if (fresh) {
        stamp = 0;
        memset(marks, 0, 3 * sizeof *marks);
    }
}

#define INDEX mesh, mesh_len, measures, sizes, starts, starts_len, members, members_len, boxes, boxes_len, marks, marks_len

static uint32_t max_height(void)
{
    begun();
    return mandrikelo_max_height(INDEX, stamp, q[0], q[1], q[2], q[3], q[4], height, counts, touched);
}

static uint32_t max_bull(void)
{
    begun();
    return mandrikelo_max_bull(INDEX, stamp, q[0], q[1], q[2], q[3], height, counts, touched);
}

static uint32_t max_sections(void)
{
    begun();
    return mandrikelo_max_sections(INDEX, stamp, q[0], q[1], tool, tool_len, height, counts, touched);
}

static uint32_t bull_chord(void)
{
    begun();
    return mandrikelo_bull_chord_clear(INDEX, stamp, q[0], q[1], q[2], q[3], q[4], q[5], q[6], q[7], q[8], counts);
}

static uint32_t sections_chord(void)
{
    begun();
    return mandrikelo_sections_chord_clear(INDEX, stamp, q[0], q[1], q[2], q[3], q[4], q[5], q[6], tool, tool_len, counts);
}

/* The first `points` of q are points; marks are one a triangle; the marks and the stamp. */
static void question(const char *name, size_t points, const double *good, size_t many, uint32_t (*call)(void))
{
    static const char *const NUMBER[9] = {"number 0", "number 1", "number 2", "number 3", "number 4", "number 5", "number 6", "number 7", "number 8"};
    part = name;
    memcpy(q, good, many * sizeof *q);
    for (size_t k = 0; k < points; k++)
        range(NUMBER[k], q + k, -3e6, 3e6, 2, call);
    length("marks_len", &marks_len, 2, 1, 1, call);
    fresh = false;
    stamp = 7;
    marks[0] = marks[1] = 7;
    expect("marks at the stamp", 0, call());
    stamp = 7;
    marks[0] = marks[1] = 8;
    expect("marks above the stamp", 7, call());
    stamp = UINT32_MAX;
    expect("the last stamp", 0, call());
    expect("the stamp after it", 1, counts[points == 6 ? 2 : 1]);
    fresh = true;
}

static void sections_of_a_tool(uint32_t (*call)(void))
{
    range("z0", tool, 0, 1e6, 8, call);
    range("r0", tool + 1, 0, tool[2], 8, call);
    tool[1] = 0;
    range("r1, r0 being 0", tool + 2, nextafter(0, 1), 1e6, 8, call);
    range("rise", tool + 3, 0, 1e9, 8, call);
    tool[1] = 1;
    range("r1, r0 being 1", tool + 2, 1, 1e6, 8, call);
    for (size_t i = 4; i < 4 * 33; i++)
        tool[i] = tool[i - 4];
    length("sections_len, one", &tool_len, 4, 8, 8, call);
    length("sections_len, 32", &tool_len, 128, 8, 8, call);
    tool_len = 132;
    expect("33 sections", 8, call());
    tool_len = 0;
    expect("no section", 8, call());
    tool_len = 4;
}

static void the_questions(void)
{
    const double section[4] = {0, 1, 3, 2}, disk[5] = {4, 4, 5, 5, 1}, bull[4] = {4, 4, 2, 1}, chord[9] = {1, 1, 20, 5, 5, 20, 2, 1, 0};
    memcpy(tool, section, sizeof section);
    question("max_height", 4, disk, 5, max_height);
    range("r", q + 4, 0, 1e6, 2, max_height);
    question("max_bull", 2, bull, 4, max_bull);
    range("rc", q + 3, 0, q[2], 8, max_bull);
    q[3] = 0;
    range("r", q + 2, 0, 1e6, 2, max_bull);
    question("max_sections", 2, (const double[2]){4, 4}, 2, max_sections);
    sections_of_a_tool(max_sections);
    question("bull_chord_clear", 6, chord, 9, bull_chord);
    range("rc", q + 7, 0, q[6], 8, bull_chord);
    range("lift", q + 8, -1e6, 1e6, 2, bull_chord);
    q[7] = 0;
    range("r", q + 6, 0, 1e6, 2, bull_chord);
    question("sections_chord_clear", 6, (const double[7]){1, 1, 20, 5, 5, 20, 0}, 7, sections_chord);
    range("lift", q + 6, -1e6, 1e6, 2, sections_chord);
    sections_of_a_tool(sections_chord);
}

/* What rise and lift mean, where a wrong reading of them would be seen. */
static void rise_and_lift(void)
{
    part = "rise and lift";
    const double cone[4] = {1, 1, 3, 2}, level[4] = {0, 3, 3, 0};
    for (int d = 0; d <= 4; d++) {
        /* A corner at the height 10, d beside the axis: the surface over it is at 1 up to the radius 1, and 2 more a unit up to 3. */
        const double spike[9] = {d, 0, 10, 50, 1, -40, 50, -1, -40};
        bool met = mandrikelo_section_contact(spike, 0, 0, cone, height, touched);
        double wanted = d <= 1 ? 10 - 1 : 10 - (1 + 2 * (d - 1.0));
        expect("the spike is met", d <= 3, met);
        if (met)
            expect("the tip over the spike", 1, fabs(height[0] - wanted) < 1e-6);
        expect("what is touched is told", met, touched[0] != 0);
    }
    const double over[9] = {2, 4, 10.5, 6, 4, 10.5, 2, 0, 0};
    memcpy(q, over, sizeof q);
    memcpy(tool, level, sizeof level);
    expect("tip at 10.5 over the face at 10, lift 0", 0, bull_chord());
    expect("is clear", 1, counts[0]);
    q[8] = 1;
    expect("lift 1", 0, bull_chord());
    expect("is blocked", 2, counts[0]);
    q[8] = 0.5;
    expect("lift 0.5", 0, bull_chord());
    expect("touches, and is clear", 1, counts[0]);
    q[8] = 0.5000001;
    expect("a little more", 0, bull_chord());
    expect("is blocked", 2, counts[0]);
    q[2] = q[5] = 9, q[8] = -1;
    expect("tip at 9, lift -1", 0, bull_chord());
    expect("is clear: the part was lowered", 1, counts[0]);
    q[2] = q[5] = 10.5;
    for (int lift = 0; lift <= 1; lift++) {
        q[6] = lift;
        expect("the sections' chord", 0, sections_chord());
        expect("clear at 0, blocked at 1", 1 + (uint32_t)lift, counts[0]);
    }
    q[2] = q[5] = 0.5, q[0] = q[3] = 100, q[6] = 1;
    expect("under floor + lift", 0, sections_chord());
    expect("is blocked", 2, counts[0]);
    expect("before any walk", 0, counts[1]);
}

/* ---- the header's ranges: the question lies far from the grid, so that 7 has no cell to look at */

static void the_header(void)
{
    static const char *const MEASURE[6] = {"origin x", "origin y", "cell", "floor", "eps", "r"};
    const double low[6] = {-1e6, -1e6, 1e-6, -1e6, nextafter(0, 1), 0}, high[6] = {1e6, 1e6, 2e6, 1e6, 2e-6, 1e6};
    part = "header";
    expect("good", 0, build());
    const double far_off[5] = {-3e6, -3e6, -3e6, -3e6, 0};
    memcpy(q, far_off, sizeof far_off);
    for (size_t k = 0; k < 6; k++)
        range(MEASURE[k], measures + k, low[k], high[k], 7, max_height);
    const uint32_t tried[][4] = {{2, 65536, 1, 0}, {2, 65537, 1, 7}, {2, 1, 65536, 0}, {2, 1, 65537, 7}, {2, 1024, 1024, 0}, {2, 1024, 1025, 7},
        {2, 1, 1, 0}, {2, 0, 1, 7}, {2, 1, 0, 7}, {1, 1, 1, 7}, {3, 1, 1, 7}};
    starts_len = CELLS + 1;
    for (size_t i = 0; i < sizeof tried / sizeof *tried; i++) {
        memcpy(sizes, tried[i], sizeof sizes);
        expect("n, columns, rows", tried[i][3], max_height());
    }
    sizes[0] = 2, sizes[1] = sizes[2] = 10;
    length("starts_len", &starts_len, 101, 7, 0, max_height);
    starts_len = ROOM;
    expect("good again", 0, build());
}

/* ---- the plan, over an index with r 2 and floor 0 */

static double parameters[7], levels[10], runs[5 * ROOM], lengths[2];
static size_t levels_len = 10, runs_len = 5 * ROOM;
static uint32_t axis;

static uint32_t plan(void)
{
    return mandrikelo_plan(INDEX, parameters, axis, levels, levels_len, runs, runs_len, lengths, counts);
}

/* Whether the parameters pass: later refusals are no matter of theirs. */
static uint32_t nine(void)
{
    uint32_t k = plan();
    return k == 10 || k == 12 || k == 13 ? 0 : k;
}

static void the_plan(void)
{
    const double good[7] = {0.001, 0.01, 2, 0.5, -1, 20, 30}, smallest = nextafter(0, 1);
    part = "plan";
    memcpy(parameters, good, sizeof good);
    expect("good", 0, plan());
    expect("a run's z is its level's and the stock to leave", 1, runs[4] == levels[0] + 0.5);
    range("tolerance, level tolerance being 0.01", parameters, 1e-7, 0.01, 9, nine);
    parameters[1] = 0.005;
    range("tolerance, level tolerance being 0.005", parameters, 1e-7, 0.005, 9, nine);
    range("level tolerance", parameters + 1, parameters[0], 0.1, 9, nine);
    parameters[1] = 0.01;
    range("stepover", parameters + 2, nextafter(16 * parameters[0], 1), 2 * reach, 9, nine);
    range("stock to leave", parameters + 3, 0, 1e6, 9, nine);
    range("stock bottom", parameters + 4, -1e6, ground, 9, nine);
    range("stock top", parameters + 5, smallest, 1e6, 9, nine);
    range("cutting length", parameters + 6, -1e6, 1e6, 9, nine);
    for (axis = 0; axis < 4; axis++)
        expect("axis", axis < 2 ? 0 : 9, plan());
    axis = UINT32_MAX;
    expect("the largest axis", 9, plan());
    axis = 0;
    length("marks_len", &marks_len, 2, 1, 1, plan);
    /* 10: the level lies at 10; depth 10 under a stock of 20, and 16 tolerances of reach. */
    parameters[5] = 10;
    expect("a level at the stock's top", 0, plan());
    parameters[5] = nextafter(10, 0);
    expect("a level above it", 10, plan());
    parameters[0] = 0x1p-10, parameters[5] = 20, parameters[6] = 10 + 0x1p-6;
    expect("as deep as the cutting length reaches", 0, plan());
    parameters[6] = nextafter(parameters[6], 0);
    expect("deeper", 10, plan());
    /* 11 and 13: rooms. */
    memcpy(parameters, good, sizeof good);
    levels_len = 4;
    expect("room for no level", 11, plan());
    levels_len = 5;
    expect("room for one level", 0, plan());
    size_t made = counts[2];
    length("runs_len", &runs_len, 5 * made, 13, 0, plan);
    levels_len = 10;
    /* 12: 65,535 intervals or samples, and one more. Rows lie 2 apart and samples 0.5, over a strip grown by 2 on all sides. */
    for (int rows = 1; rows >= 0; rows--)
        for (uint32_t many = 65535; many <= 65536; many++) {
            const double narrow = 0.001, wide = (rows ? 2.0 : 0.5) * many - 4 - 0.001;
            const double x = rows ? narrow : wide, y = rows ? wide : narrow;
            const double strip[18] = {0, 0, 10, x, 0, 10, x, y, 10, 0, 0, 10, x, y, 10, 0, y, 10};
            memcpy(mesh, strip, sizeof strip);
            expect("a strip", 0, build());
            uint32_t k = plan();
            expect(rows ? "65,535 or 65,536 intervals" : "65,535 or 65,536 samples", many == 65535 ? 0 : 12, k == 13 ? 0 : k);
        }
    memcpy(mesh, SQUARE, sizeof SQUARE);
    reach = 0;
    expect("an index with r 0", 0, build());
    expect("has no plan", 9, plan());
    reach = 2;
    expect("good again", 0, build());
}

/* ---- joining, moves, the tool sheet */

static double path[10], heights[3], start[3], position[3], end[3];
static size_t path_len = 10, joined[1];
static uint64_t first_id = 1, state[3], go[2];

static uint32_t join(void)
{
    return mandrikelo_join(path, path_len, joined);
}

static uint32_t begin(void)
{
    return mandrikelo_moves_begin(path, path_len, heights, start, first_id, position, state);
}

static uint32_t next(void)
{
    return mandrikelo_moves_next(path, path_len, heights, position, state, end, go);
}

static void the_moves(void)
{
    const double two[10] = {0, 0, 1, 0, 3, 2, 0, 3, 0, 3};
    part = "join";
    memcpy(path, two, sizeof two);
    range("a number", path + 7, -0x1.fffffffffffffp1023, 0x1.fffffffffffffp1023, 2, join);
    memcpy(path, two, sizeof two);
    length("runs_len", &path_len, 5, 1, 1, join);
    part = "moves_begin";
    memcpy(path, two, sizeof two);
    const double given[3] = {20, 12, 9}, from[3] = {-5, -5, 30};
    memcpy(heights, given, sizeof heights);
    memcpy(start, from, sizeof start);
    expect("good", 0, begin());
    range("start x", start, -1e6, 1e6, 26, begin);
    range("start z", start + 2, heights[0], 1e6, 26, begin);
    range("clearance", heights, heights[1], start[2], 26, begin);
    range("retract", heights + 1, heights[2], heights[0], 26, begin);
    range("feed", heights + 2, 3, heights[1], 26, begin);
    range("a run's z", path + 4, -1e6, heights[2], 26, begin);
    range("a run's x", path + 5, -1e6, 1e6, 26, begin);
    length("runs_len", &path_len, 5, 1, 1, begin);
    path_len = 10;
    const uint64_t ids[][2] = {{0, 27}, {1, 0}, {UINT64_MAX - 15, 0}, {UINT64_MAX - 14, 27}, {UINT64_MAX, 27}};
    for (size_t i = 0; i < sizeof ids / sizeof *ids; i++) {
        first_id = ids[i][0];
        expect("first id", (uint32_t)ids[i][1], begin());
    }
    part = "moves_next";
    const uint64_t states[][4] = {{1, 1, 5, 0}, {1, 2, 5, 29}, {7, 2, 5, 0}, {8, 0, 5, 29}, {UINT64_MAX, 0, 5, 29}, {1, 0, UINT64_MAX - 1, 0},
        {1, 0, UINT64_MAX, 29}, {7, 0, UINT64_MAX, 0}, {1, UINT64_MAX, 5, 29}};
    for (size_t i = 0; i < sizeof states / sizeof *states; i++) {
        memcpy(state, states[i], sizeof state);
        expect("phase, run, next id", (uint32_t)states[i][3], next());
    }
    memcpy(state, states[0], sizeof state);
    length("runs_len", &path_len, 10, 1, 1, next);
}

static double sheet[8], holders[4 * 32], made[4 * 33];
static size_t holders_len, made_len = 4 * 33;
static uint32_t shape, sections_made[1];
static bool enclose, neck;

static uint32_t sections_of(void)
{
    return mandrikelo_sections_of(shape, enclose, neck, sheet, holders, holders_len, made, made_len, sections_made);
}

static void the_sheet(void)
{
    const double good[8] = {10, 2, 1, 30, 20, 25, 4, 3};
    part = "sections_of";
    memcpy(sheet, good, sizeof good);
    for (size_t i = 0; i < 4 * 32; i++)
        holders[i] = (const double[4]){20, 30, 5, 9}[i % 4];
    const uint32_t refused[] = {0, 24, 24, 0, 0, 24, 24}, enclosed[] = {0, 0, 0, 0, 0, 24, 24};
    for (shape = 0; shape < 7; shape++) {
        enclose = false;
        expect("a shape", refused[shape], sections_of());
        enclose = true;
        expect("a shape with its enclosure", enclosed[shape], sections_of());
    }
    shape = 0;
    for (size_t k = 0; k < 8; k++)
        for (int i = 0; i < 3; i++) {
            sheet[k] = i == 0 ? NAN : i == 1 ? INFINITY : -INFINITY;
            expect("a number of the sheet that is not finite", 2, sections_of());
            sheet[k] = good[k];
        }
    const double diameters[][2] = {{0, 8}, {nextafter(0, 1), 8}, {2 * nextafter(0, 1), 0}, {2e6, 0}, {nextafter(2e6, 3e6), 8}, {-10, 8}};
    for (size_t i = 0; i < sizeof diameters / sizeof *diameters; i++) {
        sheet[0] = diameters[i][0];
        expect("a diameter", (uint32_t)diameters[i][1], sections_of());
    }
    sheet[0] = good[0];
    length("holders_len", &holders_len, 4, 1, 1, sections_of);
    holders_len = 4;
    length("sections_len, an end and a holder", &made_len, 8, 25, 0, sections_of);
    /* A cylinder at the cutting length of 30 stands only where that is below the stickout, and one at the end of the neck, 25 higher. */
    const double stickout[][3] = {{30, 0, 2}, {nextafter(30, 31), 0, 3}, {30, 1, 2}, {55, 1, 3}, {nextafter(55, 56), 1, 4}};
    for (size_t i = 0; i < sizeof stickout / sizeof *stickout; i++) {
        sheet[4] = stickout[i][0];
        neck = stickout[i][1] != 0;
        expect("a stickout", 0, sections_of());
        expect("its sections", (uint32_t)stickout[i][2], sections_made[0]);
    }
    sheet[4] = good[4], neck = false;
    holders_len = 4 * 31;
    expect("31 holders", 0, sections_of());
    expect("32 sections", 32, sections_made[0]);
    holders_len = 4 * 32;
    expect("32 holders", 8, sections_of());
}

/* ---- another planner's moves: one move, a rapid or a cut over the square */

static uint8_t list[34 + 25 + 1];
static size_t list_len = 59;
static double ends[6], depth = 1e-3;
static uint32_t finding[3];

static uint32_t look_over(void)
{
    memcpy(list + 10, ends, 24);
    memcpy(list + 35, ends + 3, 24);
    return mandrikelo_look_over(list, list_len, INDEX, tool, tool_len, depth, finding);
}

/* The three numbers of a list that is accepted. */
static void found(const char *what, uint32_t verdict, uint32_t move, uint32_t reason)
{
    expect(what, 0, look_over());
    expect(what, verdict, finding[0]);
    expect(what, move, finding[1]);
    expect(what, reason, finding[2]);
}

static void at_height(double start, double end)
{
    const double good[6] = {1, 1, start, 3, 3, end};
    memcpy(ends, good, sizeof ends);
}

static void list_byte(const char *what, size_t at, int value, uint32_t refusal)
{
    const uint8_t kept = list[at];
    list[at] = (uint8_t)value;
    expect(what, refusal, look_over());
    list[at] = kept;
}

static void the_paths(void)
{
    static const char *const NAME[6] = {"start x", "start y", "start z", "end x", "end y", "end z"};
    part = "look_over";
    memcpy(list, "FTP\1\0\0\1\0\0", 10);
    memcpy(tool, (const double[4]){0, 2, 2, 0}, 4 * sizeof *tool);
    tool_len = 4;
    at_height(12, 12);
    found("a rapid", 1, 0, 0);
    range("tolerance", &depth, 1e-7, 0.01, 2, look_over);
    for (size_t k = 0; k < 6; k++) {
        const double kept = ends[k], good[] = {3e6, -3e6}, over[] = {nextafter(3e6, INFINITY), nextafter(-3e6, -INFINITY)};
        const double none[] = {INFINITY, -INFINITY, NAN};
        for (size_t i = 0; i < 2; i++) {
            ends[k] = good[i];
            expect(NAME[k], 0, look_over());
            ends[k] = over[i];
            expect(NAME[k], 2, look_over());
        }
        for (size_t i = 0; i < 3; i++) {
            ends[k] = none[i];
            expect(NAME[k], 20, look_over());
        }
        ends[k] = kept;
    }
    length("bytes_len", &list_len, 59, 19, 21, look_over);
    length("marks_len", &marks_len, 2, 1, 1, look_over);
    list_len = 33;
    expect("33 bytes", 14, look_over());
    list_len = 34;
    expect("34 bytes and a count of 1", 19, look_over());
    list[6] = 0;
    expect("no move", 0, look_over());
    expect("no move passes", 1, finding[0]);
    list[6] = 1, list_len = 59;
    list_byte("the mark", 2, 'M', 15);
    list_byte("the version", 3, 2, 16);
    list_byte("the sixth byte", 5, 1, 17);
    list_byte("65,537 moves", 8, 1, 18);
    list_byte("kind 2", 34, 2, 28);
    tool_len = 0;
    expect("no section", 8, look_over());
    tool_len = 4;
    at_height(12, 5);
    found("a rapid into the square", 2, 0, 1);
    list[34] = 1;
    found("a cut that changes its z", 2, 0, 2);
    at_height(0., -0.);
    found("a cut from 0 to -0", 2, 0, 2);
    at_height(5, 5);
    found("a cut too deep", 2, 0, 3);
    at_height(10, 10);
    found("a cut on the square", 1, 0, 0);
    list[34] = 0;
}

/* ---- files */

static uint8_t *bytes;
static size_t bytes_len, file_mesh_len = 9, asked_len = 5, job_size[1];
static double *file_mesh, *asked, place[2] = {0, 1};
static uint32_t told[2];

static uint32_t read_job(void)
{
    return mandrikelo_read_job(bytes, bytes_len, file_mesh, file_mesh_len, asked, asked_len, place, told);
}

static uint32_t read_stl(void)
{
    return mandrikelo_read_stl(bytes, bytes_len, file_mesh, file_mesh_len, told);
}

static uint32_t write_job(void)
{
    return mandrikelo_write_job(mesh, mesh_len, place[0], place[1], asked, asked_len, bytes, bytes_len, job_size);
}

/* A byte of the file that gets another value. */
static void byte(const char *what, size_t at, int value, uint32_t refusal, uint32_t (*call)(void))
{
    const uint8_t kept = bytes[at];
    bytes[at] = (uint8_t)value;
    expect(what, refusal, call());
    bytes[at] = kept;
}

static void the_files(void)
{
    const size_t room = 30 + 112 * ((size_t)MOST + 1);
    bytes = calloc(room, 1);
    file_mesh = calloc(9 * ((size_t)MOST + 1), sizeof *file_mesh);
    asked = calloc(5 * ((size_t)MOST + 1), sizeof *asked);
    if (!bytes || !file_mesh || !asked)
        exit(2);
    part = "write_job";
    mesh_len = 9, bytes_len = room;
    expect("good", 0, write_job());
    expect("its bytes", 142, (uint32_t)job_size[0]);
    length("bytes_len", &bytes_len, 142, 22, 0, write_job);
    length("mesh_len", &mesh_len, 9, 1, 1, write_job);
    length("questions_len", &asked_len, 5, 1, 1, write_job);
    mesh_len = 0;
    expect("no triangle", 18, write_job());
    mesh_len = 9 * (size_t)MOST;
    expect("65,536 triangles", 0, write_job());
    mesh_len += 9;
    expect("65,537 triangles", 1, write_job());
    mesh_len = 9, asked_len = 5 * (size_t)MOST;
    expect("65,536 questions", 0, write_job());
    asked_len += 5;
    expect("65,537 questions", 18, write_job());
    asked_len = 5;
    const double largest = 0x1.fffffffffffffp1023;
    range("floor", place, -largest, largest, 20, write_job);
    range("radius", place + 1, -largest, largest, 20, write_job);
    range("a coordinate", mesh + 8, -largest, largest, 20, write_job);
    range("a question's number", asked + 4, -largest, largest, 20, write_job);
    expect("good again", 0, write_job());

    part = "read_job";
    bytes_len = 142;
    expect("good", 0, read_job());
    length("bytes_len", &bytes_len, 142, 19, 21, read_job);
    bytes_len = 29;
    expect("29 bytes", 14, read_job());
    bytes_len = 30;
    expect("30 bytes", 19, read_job());
    bytes_len = 101;
    expect("a triangle less a byte", 19, read_job());
    expect("none whole", 0, told[0]);
    bytes_len = 102;
    expect("a whole triangle", 19, read_job());
    expect("one whole", 1, told[0]);
    bytes_len = 142;
    byte("another mark", 2, 'N', 15, read_job);
    byte("version 0", 3, 0, 16, read_job);
    byte("version 2", 3, 2, 16, read_job);
    byte("version 257", 4, 1, 16, read_job);
    byte("the sixth byte", 5, 1, 17, read_job);
    byte("no triangle", 6, 0, 18, read_job);
    byte("two triangles", 6, 2, 18, read_job);
    byte("two questions", 10, 2, 18, read_job);
    length("room for a triangle", &file_mesh_len, 9, 18, 0, read_job);
    length("room for a question", &asked_len, 5, 18, 0, read_job);
    byte("an infinite number", 141, 0x7f, 0, read_job);
    bytes[140] = 0xf0;
    byte("an infinite number", 141, 0x7f, 20, read_job);
    bytes[140] = 0;
    file_mesh_len = 9 * ((size_t)MOST + 1), asked_len = 5 * ((size_t)MOST + 1);
    bytes[6] = 0, bytes[8] = 1; /* 65,536 triangles; then one more */
    bytes_len = 30 + 72 * (size_t)MOST + 40;
    expect("65,536 triangles", 0, read_job());
    byte("65,537 triangles", 6, 1, 18, read_job);
    bytes[6] = 1, bytes[8] = 0, bytes[10] = 0, bytes[12] = 1;
    bytes_len = 30 + 72 + 40 * (size_t)MOST;
    expect("65,536 questions", 0, read_job());
    byte("65,537 questions", 10, 1, 18, read_job);

    part = "read_stl";
    memset(bytes, 0, room);
    bytes[80] = 1;
    bytes_len = 134;
    file_mesh_len = 9;
    expect("good", 0, read_stl());
    length("bytes_len", &bytes_len, 134, 19, 21, read_stl);
    bytes_len = 83;
    expect("83 bytes", 14, read_stl());
    bytes_len = 84;
    expect("84 bytes", 19, read_stl());
    bytes_len = 134;
    byte("no triangle", 80, 0, 18, read_stl);
    length("room for a triangle", &file_mesh_len, 9, 18, 0, read_stl);
    bytes[130] = 0x80, bytes[94] = 0x80; /* the last number of the last vertex, and the normal's */
    byte("an infinite vertex", 131, 0x7f, 20, read_stl);
    byte("an infinite normal", 95, 0x7f, 0, read_stl);
    bytes[130] = 0;
    file_mesh_len = 9 * ((size_t)MOST + 1);
    bytes[80] = 0, bytes[82] = 1;
    bytes_len = 84 + 50 * (size_t)MOST;
    expect("65,536 triangles", 0, read_stl());
    expect("told", MOST, told[0]);
    byte("65,537 triangles", 80, 1, 18, read_stl);
}

static void the_names(void)
{
    part = "names";
    expect("the library's version is the header's", MANDRIKELO_VERSION, mandrikelo_version());
    for (uint32_t k = 0; k <= MANDRIKELO_REFUSED_STATE; k++)
        for (uint32_t j = 0; j < k; j++)
            expect("each refusal has a text of its own", 1, strcmp(mandrikelo_refusal_text(j), mandrikelo_refusal_text(k)) != 0);
    expect("a number that is no refusal", 0, (uint32_t)strcmp(mandrikelo_refusal_text(30), "no such refusal"));
}

int main(void)
{
    mesh = calloc(9 * ((size_t)MOST + 2), sizeof *mesh);
    boxes = calloc(5 * ((size_t)MOST + 2), sizeof *boxes);
    starts = calloc(CELLS + 1, sizeof *starts);
    members = calloc((size_t)MEMBERS + 1, sizeof *members);
    marks = calloc(4, sizeof *marks);
    if (!mesh || !starts || !members || !marks)
        return 2;
    memcpy(mesh, SQUARE, sizeof SQUARE);
    the_names();
    the_build();
    the_rooms();
    the_check();
    the_questions();
    rise_and_lift();
    the_header();
    the_plan();
    the_moves();
    the_sheet();
    the_paths();
    the_files();
    printf("ranges: %u passed, %u failed\n", passed, failed);
    return failed != 0;
}
