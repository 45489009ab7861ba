/* Mandrikelo: the flat-area planner, for C, C++ and Rust. `./library` makes libmandrikelo.a and libmandrikelo.so, `./library install
 * PREFIX` puts them, this header and a file for pkg-config in place. docs/USING.md is the same page with drawings, the sizes of all
 * tables and samples in C, C++ and Python.
 *
 * Every call on every input ends, stays inside its buffers and keeps nothing: there is no state, no heap, no error number. What a
 * function answers is proved; docs/READING.md leads to the statements.
 *
 * A table is a pointer and its length. A LENGTH COUNTS NUMBERS, not records: mesh_len is 9 a triangle, runs_len 5 a run, sections_len 4
 * a section. A table of length 0 needs a pointer that is not null. Fixed arrays have the length that stands in the brackets and get an
 * answer whenever they are not `const`, refused calls included. `const` tables are only read: any number of threads may read one at
 * once, so a mesh and its index are shared by all. The other tables are lent: written as said at each function, one thread at a time.
 * No two tables of one call may overlap, unless both are `const`.
 *
 * Numbers are f64s in one unit of length, whichever it is. In a range both ends belong to it, -0.0 counts as zero, and a NaN is in none.
 *
 * A mesh is 9 numbers a triangle: x, y, z of its three corners; 1 to 65,536 triangles, each coordinate of magnitude at most 1e6.
 *
 * A section of a tool is 4 numbers: z0, r0, r1, rise. Seen from below the tool is level out to the radius r0, at the height z0 over the
 * tip, and from there goes up in a straight line to the radius r1: at the radius d it lies at z0 + (d - r0) * rise. So `rise` IS A SLOPE,
 * height a unit of radius, and no height: a cone that climbs 4 from r0 = 1 to r1 = 3 has rise 2. A level end has rise 0. Valid is
 * 0 <= z0 <= 1e6, 0 <= r0 <= r1, 0 < r1 <= 1e6, 0 <= rise <= 1e9.
 *
 * The functions that answer uint32_t answer 0 or a refusal number (mandrikelo_version excepted). A refusal leaves lent tables untouched
 * (exceptions: 10 to 13 leave levels, runs and marks all zero) and sets fixed results to zero, the stamp to the one handed; only 4 tells
 * a place and 19 a count. MANDRIKELO_REFUSED_.. below are their names, mandrikelo_refusal_text says each in a line:
 *
 *    1  the mesh's length is no multiple of 9 or over 65,536 triangles; in questions and plan: marks_len is not the mesh's n; in
 *       joining and moves: runs_len is no multiple of 5; of a tool sheet: holders_len is no multiple of 4; of a job that is written:
 *       also questions_len is no multiple of 5
 *    2  a question's number, r or floor outside its range; in joining and of a tool sheet: a number that is not finite
 *    3  the mesh is empty
 *    4  a coordinate is not finite, or its magnitude is over 1e6; `bad` tells the first one
 *    5  columns or rows over 65,536, cells over 1,048,576, or cells + 1 over starts_len
 *    6  members over 16,777,216 or over members_len
 *    7  measures, sizes and tables are not an index of this mesh, as far as the call looks; or a mark lies above the stamp. What it does
 *       not see is said at the questions
 *    8  no section, not four numbers each, over 32, an invalid one; or the corner radius is not within 0 to r; of a tool sheet: a
 *       section that is invalid or out of range, or more than 32
 *    9  a parameter of the plan, by the rules that stand at mandrikelo_plan
 *   10  a level lies above the stock's top, or deeper under it than the cutting length less 16 tolerances
 *   11  more levels than room
 *   12  over 65,535 intervals or samples on a level
 *   13  more joined runs than room
 *   14  the file has no whole head: a job under 30 bytes, an STL file under 84, a list of moves under 34
 *   15  the job's mark is not "FTM", or that of a list of moves not "FTP"
 *   16  its version is not 1
 *   17  its sixth byte is not 0
 *   18  no triangle, or more triangles or questions than 65,536 or than the lent room; more than 65,536 moves
 *   19  the file has fewer bytes than its counts ask for: a copy that broke off; sizes[0] or count[0] tells how many triangles stand
 *       whole before the cut
 *   20  a number in it is not finite
 *   21  it has more bytes than its counts ask for, in 19's place in the order
 *   22  the lent bytes are shorter than the job that is to be written
 *   23  the box table is not five numbers a triangle
 *   24  a beam, a shape number above 5, or a ball or bull end without the enclosure
 *   25  sections_len is less than four numbers a section
 *   26  unless feed <= retract <= clearance <= start z, every run's z at most feed, and all of these numbers, the runs' and the
 *       start's finite with magnitude at most 1e6
 *   27  the first id is 0, or first id + 7 * runs + 1 lies beyond a uint64_t
 *   28  a move in a list of moves is neither a rapid nor a cut
 *   29  a state, not ended, whose run is not in the table (lift without runs excepted) or whose next id is the largest uint64_t;
 *       or a phase above 7
 */
#ifndef MANDRIKELO_H
#define MANDRIKELO_H

#include <stdbool.h>
#include <stddef.h>
#include <stdint.h>

#ifdef __cplusplus
extern "C" {
#endif

/* The number of this header and its doors; it goes up when a program has to be changed or compiled again. A program that links a
 * library from elsewhere compares the two: mandrikelo_version() == MANDRIKELO_VERSION. */
#define MANDRIKELO_VERSION 1
uint32_t mandrikelo_version(void);

/* The refusals by name. */
enum {
    MANDRIKELO_ACCEPTED = 0,
    MANDRIKELO_REFUSED_LENGTH = 1,
    MANDRIKELO_REFUSED_NUMBER = 2,
    MANDRIKELO_REFUSED_EMPTY = 3,
    MANDRIKELO_REFUSED_COORDINATE = 4,
    MANDRIKELO_REFUSED_STARTS = 5,
    MANDRIKELO_REFUSED_MEMBERS = 6,
    MANDRIKELO_REFUSED_INDEX = 7,
    MANDRIKELO_REFUSED_TOOL = 8,
    MANDRIKELO_REFUSED_PARAMETER = 9,
    MANDRIKELO_REFUSED_DEPTH = 10,
    MANDRIKELO_REFUSED_LEVELS = 11,
    MANDRIKELO_REFUSED_FINE = 12,
    MANDRIKELO_REFUSED_RUNS = 13,
    MANDRIKELO_REFUSED_HEAD = 14,
    MANDRIKELO_REFUSED_MARK = 15,
    MANDRIKELO_REFUSED_VERSION = 16,
    MANDRIKELO_REFUSED_SIXTH_BYTE = 17,
    MANDRIKELO_REFUSED_COUNT = 18,
    MANDRIKELO_REFUSED_CUT = 19,
    MANDRIKELO_REFUSED_NOT_FINITE = 20,
    MANDRIKELO_REFUSED_SURPLUS = 21,
    MANDRIKELO_REFUSED_BYTES = 22,
    MANDRIKELO_REFUSED_BOXES = 23,
    MANDRIKELO_REFUSED_SHAPE = 24,
    MANDRIKELO_REFUSED_SECTIONS = 25,
    MANDRIKELO_REFUSED_HEIGHTS = 26,
    MANDRIKELO_REFUSED_ID = 27,
    MANDRIKELO_REFUSED_KIND = 28,
    MANDRIKELO_REFUSED_STATE = 29
};

/* A refusal in words; of a number that is none, "no such refusal". */
static inline const char *mandrikelo_refusal_text(uint32_t refusal)
{
    switch (refusal) {
    case MANDRIKELO_ACCEPTED: return "accepted";
    case MANDRIKELO_REFUSED_LENGTH: return "a table has a length that it cannot have";
    case MANDRIKELO_REFUSED_NUMBER: return "a number is out of its range";
    case MANDRIKELO_REFUSED_EMPTY: return "the mesh is empty";
    case MANDRIKELO_REFUSED_COORDINATE: return "a coordinate is not finite or over 1e6";
    case MANDRIKELO_REFUSED_STARTS: return "too many cells, or too little room for starts";
    case MANDRIKELO_REFUSED_MEMBERS: return "too many members, or too little room for them";
    case MANDRIKELO_REFUSED_INDEX: return "not an index of this mesh, or a mark above the stamp";
    case MANDRIKELO_REFUSED_TOOL: return "not a tool: no section, too many, an invalid one, or a corner radius out of its range";
    case MANDRIKELO_REFUSED_PARAMETER: return "a parameter of the plan is out of its range";
    case MANDRIKELO_REFUSED_DEPTH: return "a level above the stock's top, or deeper than the cutting length reaches";
    case MANDRIKELO_REFUSED_LEVELS: return "more levels than room";
    case MANDRIKELO_REFUSED_FINE: return "over 65,535 rows or samples on a level";
    case MANDRIKELO_REFUSED_RUNS: return "more runs than room";
    case MANDRIKELO_REFUSED_HEAD: return "the file has no whole head";
    case MANDRIKELO_REFUSED_MARK: return "not a file of this kind: another mark";
    case MANDRIKELO_REFUSED_VERSION: return "a file of another version";
    case MANDRIKELO_REFUSED_SIXTH_BYTE: return "the file's sixth byte is not 0";
    case MANDRIKELO_REFUSED_COUNT: return "the file has no triangle, or more entries than are allowed or fit";
    case MANDRIKELO_REFUSED_CUT: return "the file broke off: fewer bytes than its counts ask for";
    case MANDRIKELO_REFUSED_NOT_FINITE: return "a number in the file is not finite";
    case MANDRIKELO_REFUSED_SURPLUS: return "the file has more bytes than its counts ask for";
    case MANDRIKELO_REFUSED_BYTES: return "too little room for the job's bytes";
    case MANDRIKELO_REFUSED_BOXES: return "the box table is not five numbers a triangle";
    case MANDRIKELO_REFUSED_SHAPE: return "a beam, an unknown shape, or a curved end without its enclosure";
    case MANDRIKELO_REFUSED_SECTIONS: return "too little room for the sections";
    case MANDRIKELO_REFUSED_HEIGHTS: return "clearance, retract, feed, start and runs are not in their order or range";
    case MANDRIKELO_REFUSED_ID: return "the first id is 0 or leaves too few ids";
    case MANDRIKELO_REFUSED_KIND: return "a move of an unknown kind";
    case MANDRIKELO_REFUSED_STATE: return "not a state of these moves";
    }
    return "no such refusal";
}

/* How much room a build of this mesh needs, floor and r being those of the build: rooms[0] starts and rooms[1] members. A build with these
 * or more, and five box numbers a triangle, is accepted; with fewer starts it is refused by 5, with enough starts and fewer members by 6.
 * Refusals in their order: 1, 3, 2, 4, then 5 and 6 where no table would be large enough (columns or rows over 65,536, cells over
 * 1,048,576; members over 16,777,216): then no build of this mesh is accepted, and rooms are 0, 0. It takes no table, and less than half
 * of a build's time. */
uint32_t mandrikelo_rooms(const double *mesh, size_t mesh_len, double floor, double r, size_t rooms[2] /* starts, members */);

/* The index of a mesh, which all questions and the plan want. floor: magnitude at most 1e6; it is the lowest answer of any height. r: 0 to
 * 1e6; the radius of the plan's tool, and a hint at the size of cells, while a question may ask with any radius. `starts` gets cells + 1
 * entries and `members` the triangle numbers of cell after cell; entries beyond those keep what they held. What suffices: mandrikelo_rooms
 * tells both; else starts_len of (k + 1) * (k + 1) + 1, where k is the root of n rounded down, and members_len by trial, 22 n for nine
 * parts of ten and never more than 16,777,216. `boxes` is five numbers a triangle, no more and no less, and gets the box of each: low x,
 * low y, high x, high y, high z. Refusals in their order: 1, 23, 3, 2, 4, 5, 6. An index is good as long as its mesh is not changed in any
 * number. */
uint32_t mandrikelo_build(const double *mesh, size_t mesh_len, double floor, double r,
    uint32_t *starts, size_t starts_len, uint32_t *members, size_t members_len, double *boxes, size_t boxes_len,
    double measures[6] /* origin x, origin y, cell, floor, eps, r */, uint32_t sizes[3] /* n, columns, rows */,
    uint32_t bad[2] /* after 4: the triangle, which of its nine numbers; else 0, 0 */);

/* A part goes up on parallels: `amount`, of magnitude at most 1e6, is added to every z of the mesh, and the index stays an index of it, the
 * same that mandrikelo_build would make of the raised mesh with the same floor and r: `boxes` gets the new high z of each triangle, `raised`
 * and `raised_sizes` the new header, and starts and members stay as they are. A refused call changes neither mesh nor boxes and leaves
 * zeros in the header. Refusals in their order: 1, 23, 2 (amount), 7 (measures and sizes, or a mesh that 4 refuses), 4 (a new z). */
uint32_t mandrikelo_raise(double *mesh, size_t mesh_len, double *boxes, size_t boxes_len,
    const double measures[6], const uint32_t sizes[3], double amount,
    double raised[6] /* as measures */, uint32_t raised_sizes[3] /* as sizes */,
    uint32_t bad[2] /* after 4: the triangle, which of its nine numbers; else 0, 0 */);

/* Whether measures, sizes and tables are the index of this mesh: 0 exactly if mandrikelo_build makes them of it, with the floor and the r
 * that stand in measures, or mandrikelo_raise has made them so; else 1, 23 or 7, an empty mesh and numbers out of their ranges included.
 * All numbers are compared to the bit, zeros of two signs too; entries of starts and members that the index does not need may hold
 * anything. Nothing is lent and nothing written. It takes about the time of a build. Call it when mesh and index may have come apart:
 * after they were read from a file or handed on by another program, when one of the two may have been changed or exchanged, and after a
 * part was moved in any way but by mandrikelo_raise. The questions and the plan do not look for it, see 7 below. */
uint32_t mandrikelo_check_index(const double *mesh, size_t mesh_len, const double measures[6], const uint32_t sizes[3],
    const uint32_t *starts, size_t starts_len, const uint32_t *members, size_t members_len,
    const double *boxes, size_t boxes_len);

/* Questions to an index that mandrikelo_build made of the same mesh. `marks` has one entry a triangle (marks_len is n), all 0 before the
 * first question, and is carried with the stamp (0 at first) from question to question; a call sets the marks of the triangles that it
 * looked at to the new stamp, one more than the one handed; after 4,294,967,295 all marks are wiped and it is 1. Threads that ask at
 * once share mesh and index, and each has marks and a stamp of its own. counts: the number of triangles looked at, the stamp afterwards.
 * touched: the triangle that last raised the height and what of it the cutter touches, as at the contacts of one triangle below; only a
 * strictly higher contact raises it, so of several equally high the first in the order of the walk is told. All 0 where the height is
 * the floor, and after a refusal; touched[1] tells the floor from triangle 0.
 *
 * Points are of magnitude at most 3e6, radii 0 to 1e6, lift of magnitude at most 1e6: else 2. Refusals in their order: 1, 23, 2, 8, 7.
 *
 * 7 looks at the header (its ranges, its n, cells + 1 within starts_len) and, in the cells of this question alone, at the stretches of
 * `members`, at each member's number, coordinates, box numbers and mark. Boxes are taken as they stand in the table. It does not compare
 * index and mesh: the index of another mesh with as many triangles passes, also that of the same part before it was moved, and then a
 * height may be that of bare floor. So mesh and index are kept together, a changed mesh is built anew, and where the two may have come
 * apart mandrikelo_check_index tells. */

/* The highest point under the disk of radius r swept from (px, py) to (qx, qy), at least the floor. r need not be the index's. */
uint32_t mandrikelo_max_height(const double *mesh, size_t mesh_len, const double measures[6], const uint32_t sizes[3],
    const uint32_t *starts, size_t starts_len, const uint32_t *members, size_t members_len,
    const double *boxes, size_t boxes_len, uint32_t *marks, size_t marks_len, uint32_t stamp,
    double px, double py, double qx, double qy, double r,
    double found[1] /* the height */, uint32_t counts[2] /* count, stamp afterwards */,
    uint32_t touched[3] /* triangle; 0 the floor, 1 corner, 2 edge, 3 face; which of three, else 0 */);

/* The highest tip of a bull-nose cutter of radius r and corner radius rc over (px, py), at least the floor: where the cutter, let down,
 * touches. 0 <= rc <= r, else 8: rc 0 is a flat end, rc = r a ball. */
uint32_t mandrikelo_max_bull(const double *mesh, size_t mesh_len, const double measures[6], const uint32_t sizes[3],
    const uint32_t *starts, size_t starts_len, const uint32_t *members, size_t members_len,
    const double *boxes, size_t boxes_len, uint32_t *marks, size_t marks_len, uint32_t stamp,
    double px, double py, double r, double rc,
    double found[1], uint32_t counts[2], uint32_t touched[3]);

/* The highest tip of a tool of sections over (px, py), at least the floor. 1 to 32 sections, sections_len 4 to 128, each valid as said
 * above, in any order, and they may overlap: else 8. */
uint32_t mandrikelo_max_sections(const double *mesh, size_t mesh_len, const double measures[6], const uint32_t sizes[3],
    const uint32_t *starts, size_t starts_len, const uint32_t *members, size_t members_len,
    const double *boxes, size_t boxes_len, uint32_t *marks, size_t marks_len, uint32_t stamp,
    double px, double py, const double *sections, size_t sections_len,
    double found[1], uint32_t counts[2], uint32_t touched[3]);

/* Whether the tool stays above the part, RAISED by `lift`, on its way from tip a to tip b. `lift` raises the part against the tool, not
 * the tool: it is the distance that has to be kept. With the tip at 10.5 over a face at 10, lift 0 is clear and lift 1 is blocked; a
 * negative lift lets the tool into the part by as much. To touch a level face is clear. Blocked before any walk (count 0, stamp and
 * marks as handed) if an end lies under the floor + lift. All of ax .. bz are of magnitude at most 3e6, lift of at most 1e6; r 0 to 1e6,
 * 0 <= rc <= r. */
uint32_t mandrikelo_bull_chord_clear(const double *mesh, size_t mesh_len, const double measures[6], const uint32_t sizes[3],
    const uint32_t *starts, size_t starts_len, const uint32_t *members, size_t members_len,
    const double *boxes, size_t boxes_len, uint32_t *marks, size_t marks_len, uint32_t stamp,
    double ax, double ay, double az, double bx, double by, double bz, double r, double rc, double lift,
    uint32_t counts[3] /* 0 none, 1 clear, 2 blocked; count; stamp afterwards */);

/* The same for a tool of sections, as in mandrikelo_max_sections. */
uint32_t mandrikelo_sections_chord_clear(const double *mesh, size_t mesh_len, const double measures[6], const uint32_t sizes[3],
    const uint32_t *starts, size_t starts_len, const uint32_t *members, size_t members_len,
    const double *boxes, size_t boxes_len, uint32_t *marks, size_t marks_len, uint32_t stamp,
    double ax, double ay, double az, double bx, double by, double bz, double lift,
    const double *sections, size_t sections_len,
    uint32_t counts[3]);

/* The flat runs, with the radius of the index. `levels` (z, low x, low y, high x, high y) and `runs` (ax, ay, bx, by, z) hold five
 * numbers each, and zeros where they are not used; the rooms are levels_len / 5 and runs_len / 5. A RUN'S z IS ITS LEVEL'S z + STOCK TO
 * LEAVE. `marks` is one entry a triangle, whatever it holds, and all zero afterwards.
 *
 * Refused with 9 unless all of these hold, R and F being the index's radius and floor:
 *     all seven numbers finite, magnitude at most 1e6; axis 0 or 1
 *     1e-7 <= tolerance <= 0.01                       16 * tolerance < stepover <= 2 * R
 *     tolerance <= level tolerance <= 0.1             stock to leave >= 0
 *     stock bottom <= F < stock top
 * so R has to be above 0; cutting length has no rule of its own here, and 10 compares it with the levels.
 *
 * A triangle is flat if its three z lie within tolerance of the first corner's, it has an area seen from above and its z is above
 * F + level tolerance. By falling z, a flat triangle joins the level above it if it lies at most level tolerance under that level's
 * first, whose z is the level's. 10 is given if a level's z is above stock top, or stock top - z > cutting length - 16 * tolerance.
 * A level's rows lie at most stepover apart, along the axis, over its box grown by R on all sides; a row's samples lie at most a quarter
 * of the smaller of stepover and R apart; over 65,535 of either on a level is 12. Where the disk of radius R rests within level tolerance
 * of the level at two or more samples in a row, that stretch becomes a run; where part stands over the run's z + tolerance, it is halved
 * again and again, and pieces that cannot be kept are dropped. Stretches of a single sample are left out and counted nowhere.
 *
 * lengths: of all runs in the list's order, of all dropped pieces. counts: the levels, those without a run too; the ROWS OF ALL LEVELS
 * THAT HAVE A STRETCH, whether or not a run came of it (rows without one are not counted; every second counted row is cut backwards);
 * the runs. Runs that meet at one z are joined. What suffices for levels is 5 n; for runs begin with 50,000 and double it after 13.
 * Levels and runs are zeroed over their whole length, so far too large a table can cost more than the plan.
 *
 * It takes about 70 KB of stack, where every other function takes less than 16.
 *
 * Refusals in their order: 1, 23, 9, 7 (every cell and every triangle, no mark), 11, 10, 12, 13. A count over 4,294,967,295 is told as
 * 4,294,967,295; only the rows of 65,536 levels of 65,536 rows each, or runs in a table of 172 GB, could come to it. */
uint32_t mandrikelo_plan(const double *mesh, size_t mesh_len, const double measures[6], const uint32_t sizes[3],
    const uint32_t *starts, size_t starts_len, const uint32_t *members, size_t members_len,
    const double *boxes, size_t boxes_len, uint32_t *marks, size_t marks_len,
    const double parameters[7] /* tolerance, level tolerance, stepover, stock to leave, stock bottom, stock top, cutting length */,
    uint32_t axis /* 0 X, 1 Y, else 9 */,
    double *levels, size_t levels_len, double *runs, size_t runs_len,
    double lengths[2] /* cut, dropped */, uint32_t counts[3] /* levels, rows, runs */);

/* Runs of five numbers each (ax, ay, bx, by, z) joined in place: a run that begins where the one before it ends, at the same z, becomes
 * part of it. The joined runs stand first and zeros after; `count` gets their number. Refusals: 1 the table is not five numbers a run,
 * 2 one is not finite; any magnitude will do. When it is done does not matter: joined runs, with more added behind them, join to what
 * the whole list joins to. Only the first `count` runs are to be handed on: the zeros behind them are no runs, and taken for runs they
 * would join too. */
uint32_t mandrikelo_join(double *runs, size_t runs_len, size_t count[1]);

/* The sections of a tool from its sheet, in this order: the end; a cylinder at the end of the cutting length and, if there is a neck,
 * one at its end, cutting length + neck length over the tip, each where it lies below the stickout; the holders. `shape` is 0 flat, 1
 * ball, 2 bull, 3 drill, 4 chamfer, 5 beam. With `enclose` a ball or bull end is listed as the flat end of its radius, which is nowhere
 * above it (corner radii under 2^-511 excepted). The tip height is that at the full radius; the two radii are those just above the
 * cutting length and just above the neck. A holder is 4 numbers: low z, high z, low radius, high radius. The sheet's numbers may be any
 * finite ones, where the sections made of them are valid; a slope is worked out, so here nothing is one. `sections` gets 4 numbers a
 * section, 128 always suffice, and entries beyond those keep what they held; `count` gets the number of sections. What is accepted is a
 * tool that mandrikelo_max_sections and mandrikelo_sections_chord_clear take. Refusals in this order: 1, 2 (any of the numbers, used by
 * the shape or not), 24, 8, 25. */
uint32_t mandrikelo_sections_of(uint32_t shape, bool enclose, bool neck,
    const double measures[8] /* diameter, tip diameter, tip height, cutting length, stickout, neck length, radius above the cutting
        length, radius above the neck */,
    const double *holders, size_t holders_len, double *sections, size_t sections_len, uint32_t count[1]);

/* The moves for a table of runs, step by step. `begin` gives the state before the first move: the position and, in `state`, phase, run
 * and next id. Each `next` gives one move, from the position as it was before the call to `end`, and the state after it; go[0] is its
 * kind, and 0 at the end, where `end` is zero. A move whose end equals its start is left out. The heights are clearance, retract and
 * feed. The phases: 0 lift to the clearance height; for each run 1 approach over its start, 2 descend to the feed height, 3 plunge to its
 * z, 4 cut, 5 retract to the feed height, 6 rise to the retract height, after the last run to the clearance height; 7 ended. From an
 * accepted beginning the end comes after at most 7 * runs + 1 moves, ids count up by one, and every rapid that changes x or y lies at or
 * above the retract height. Ranges: runs, heights and start of magnitude at most 1e6, feed <= retract <= clearance <= start z, every
 * run's z <= feed (26); first_id from 1 to the largest uint64_t less 7 * runs + 1 (27). `next` tests the state only, and wants the same
 * runs and heights as `begin`. A refusal (1, 26, 27; 1, 29) leaves position and state as they were, and end and go zero. */
uint32_t mandrikelo_moves_begin(const double *runs, size_t runs_len, const double heights[3] /* clearance, retract, feed */,
    const double start[3], uint64_t first_id, double position[3], uint64_t state[3] /* phase, run, next id */);
uint32_t mandrikelo_moves_next(const double *runs, size_t runs_len, const double heights[3],
    double position[3], uint64_t state[3], double end[3], uint64_t go[2] /* 0 the end, 1 rapid, 2 plunge, 3 cut, 4 retract; id */);

/* Another planner's moves, looked over. `bytes` is a list of moves: "FTP", u16 version 1, a zero byte, u32 count (0 to 65,536), the start
 * point of three f64s: 34 bytes; then 25 bytes a move, a kind byte (0 rapid, 1 cut) and its end point of three f64s, little endian. Each
 * move starts where the one before it ended. A rapid is bad if it is not clear as mandrikelo_sections_chord_clear tells it, with the
 * sections and lift 0. A cut is bad if its z does not stay the same to the bit (0.0 and -0.0 differ), else if mandrikelo_max_height along
 * it, with the index's radius, is above its z + tolerance. The list passes exactly when no move is bad; else the first bad one is named,
 * from 0, with the reason. Refusals in their order: 14, 15, 16, 17, 18, 19 or 21, 20 (any number of the file), 28, then 1, 23, 2 (points
 * of magnitude at most 3e6; tolerance 1e-7 to 0.01), 8, 7 (every cell and every triangle, no mark). Then the marks, whatever they held,
 * are all zero; a refusal leaves them. */
uint32_t mandrikelo_look_over(const uint8_t *bytes, size_t bytes_len, const double *mesh, size_t mesh_len, const double measures[6],
    const uint32_t sizes[3], const uint32_t *starts, size_t starts_len, const uint32_t *members, size_t members_len,
    const double *boxes, size_t boxes_len, uint32_t *marks, size_t marks_len, const double *sections, size_t sections_len,
    double tolerance, uint32_t finding[3] /* 0 none, 1 passes, 2 does not; the first bad move; 1 blocked rapid, 2 changed z, 3 cut too
        deep; 1, 0, 0 where it passes */);

/* A job file: "FTM", u16 version 1, a zero byte, u32 number of triangles n, u32 number of questions m, f64 floor, f64 radius: 30 bytes;
 * then 72 bytes a triangle, 9 f64s, and 40 a question, 5 f64s (px, py, qx, qy, r). All little endian; the length is 30 + 72 n + 40 m, n
 * is 1 to 65,536 and m 0 to 65,536. `mesh` gets 9 numbers a triangle, `questions` 5 each; entries beyond those keep what they held.
 * Numbers may be of any size here, but finite: the ranges are the builder's and the questions'. Refusals in their order: 14, 15, 16, 17,
 * 18, 19 or 21, 20. A part of a job that is accepted never is: see 14 and 19; nor is a job with more behind it: see 21. */
uint32_t mandrikelo_read_job(const uint8_t *bytes, size_t bytes_len, double *mesh, size_t mesh_len,
    double *questions, size_t questions_len, double measures[2] /* floor, radius */,
    uint32_t sizes[2] /* n, m; after 19 the whole triangles, 0 */);

/* Whole micrometres: version 2 of the job file, the index of such a mesh and the set-up height. Every number is an i32; coordinates, points and floor of magnitude at
 * most 1,000,000,000, radii 0 to 1,000,000,000 (2, 4 and 7 for these ranges; 5 only if no cell fits). The cell is the smallest power of two from 1 to 2^31 that
 * `starts` and the limits of 5 have room for. The set-up height is the floor, or the highest top over it of any triangle whose box meets the question's box grown by
 * r, touching included; over a built index it and the boxes that meet are those of a plain walk over the whole mesh. */
uint32_t mandrikelo_read_job_um(const uint8_t *bytes, size_t bytes_len, int32_t *mesh, size_t mesh_len,
    int32_t *questions, size_t questions_len, int32_t measures[2] /* floor, radius */,
    uint32_t sizes[2] /* n, m; after 19 the whole triangles, 0 */);
uint32_t mandrikelo_build_um(const int32_t *mesh, size_t mesh_len, int32_t floor, int32_t r, uint32_t *starts, size_t starts_len,
    uint32_t *members, size_t members_len, int32_t measures[4] /* origin x, origin y, floor, r */,
    uint32_t sizes[4] /* n, columns, rows, cell */, uint32_t bad[2] /* after 4 the triangle and which of its nine numbers */);
uint32_t mandrikelo_setup_height(const int32_t *mesh, size_t mesh_len, const int32_t measures[4], const uint32_t sizes[4],
    const uint32_t *starts, size_t starts_len, const uint32_t *members, size_t members_len, uint32_t *marks, size_t marks_len,
    uint32_t stamp, int32_t px, int32_t py, int32_t qx, int32_t qy, int32_t r, int32_t height[1],
    uint32_t counts[3] /* looked at, stamp afterwards, boxes that meet */);

/* Writes such a file from a mesh, 9 numbers a triangle, and questions, 5 each. The job's bytes stand first in `bytes`, those beyond it
 * keep what they held, and `size` gets the number of its bytes, 30 + 72 n + 40 m. Numbers may be of any magnitude, but finite. Refusals
 * in their order: 1 (also: questions_len is no multiple of 5), 18 (no triangle, or over 65,536 questions), 20 (floor, radius, mesh or
 * questions), 22; nothing is written then. What is written reads back to the same numbers, bit for bit, and what was read from a file is
 * written to the same bytes. */
uint32_t mandrikelo_write_job(const double *mesh, size_t mesh_len, double floor, double radius,
    const double *questions, size_t questions_len, uint8_t *bytes, size_t bytes_len, size_t size[1]);

/* A binary STL file: 80 bytes of heading, a count, 50 bytes a triangle. `mesh` gets 9 numbers a triangle, each the double of the same
 * value as the file's f32; entries beyond those keep what they held. Heading, normals and the u16 of a triangle may hold anything, and
 * a heading that begins with "solid" means nothing. Refusals in their order: 14 under 84 bytes; 18 no triangle, over 65,536 or over
 * mesh_len / 9; 19 too short for its count; 21 surplus bytes; 20 a vertex number is not finite. */
uint32_t mandrikelo_read_stl(const uint8_t *bytes, size_t bytes_len, double *mesh, size_t mesh_len,
    uint32_t count[1] /* triangles read; after 19 those that stand whole before the cut; else 0 */);

/* The numbers that everything rests on, for any f64; every operation is rounded once, and all NaNs count as one. */
double mandrikelo_root(double x);                 /* the nearest f64 to the square root; -0.0 stays, below zero it is NaN */
double mandrikelo_round_down(double x);           /* the largest whole number not above x */
double mandrikelo_round_up(double x);
double mandrikelo_max(double x, double y);        /* a NaN yields the other; if the two compare equal, the first */
double mandrikelo_min(double x, double y);
double mandrikelo_clamp_unit(double x);           /* held to 0..1; -0.0 and NaN stay */
double mandrikelo_hypot(double x, double y);      /* the f64 nearest to the length of (x, y); infinite if either is */
bool mandrikelo_total_less(double x, double y);   /* before in the total order */

/* One triangle, as it stands, and any f64s: nothing is refused here, and what is no range of a question is worked out all the same. A
 * contact answers whether there is one, its height, and what is touched there: a corner, an edge (edge k runs from corner k to corner k
 * + 1, edge 2 back to corner 0) or the face; all 0 if there is none. Of candidates equally high the first found is told. Squared
 * distance in plan from (x0, x1) to the segment from (p0, p1) to (q0, q1); distance in plan from (x, y) to the triangle, 0 inside;
 * highest point of the triangle in the capsule, eps its slack (the index's is measures[4]); height of a bull-nose cutter over its tip at
 * the distance d from its axis; tip height of a bull-nose cutter and of a section over (px, py). */
double mandrikelo_dist2_to_segment(double x0, double x1, double p0, double p1, double q0, double q1);
double mandrikelo_distance_xy(const double triangle[9], double x, double y);
bool mandrikelo_max_in_capsule(const double triangle[9], double px, double py, double qx, double qy, double r, double eps,
    double height[1], uint32_t touched[2] /* 1 corner, 2 edge, 3 face; which of three, else 0 */);
double mandrikelo_bull_profile(double d, double r, double rc);
/* Edges that cannot exceed `floor` are skipped; -INFINITY skips none. */
bool mandrikelo_bull_contact(const double triangle[9], double px, double py, double r, double rc, double floor,
    double height[1], uint32_t touched[2]);
bool mandrikelo_section_contact(const double triangle[9], double px, double py, const double section[4],
    double height[1], uint32_t touched[2]);

#ifdef __cplusplus
}
#endif

#endif
