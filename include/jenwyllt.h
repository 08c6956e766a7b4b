/* Regions of a walk grid cut by spans, the boundaries that a pass keeps, two desks over one partition, the passes run to rest, the ranked junction list, runner and guard, how far
   boundaries are apart, the reader, the writer and the converter of sheets, writer and reader of result sheets, the line of an accession record, the maps in the pool on a day, the year's
   figures, the share behind dominance, and the correctly rounded hypotenuse.
   The library is for x86-64 Linux: libjenwyllt.a and libjenwyllt.so, which tools/build_library.sh writes to target/lib. It keeps no state and allocates
   nothing; from outside it needs only `memcpy` and `memset`.
   Every function is proved to meet the definitions of crates/definitions, crates/separations, crates/catalogue, crates/results, crates/map_sheets,
   crates/report, crates/ranked_list, crates/game, crates/game_calls and crates/desks for every input that keeps to what stands here. */
#ifndef JENWYLLT_H
#define JENWYLLT_H

#include <stdbool.h>
#include <stddef.h>
#include <stdint.h>

#ifdef __cplusplus
extern "C" {
#endif

#define JENWYLLT_VERSION_MAJOR 0
#define JENWYLLT_VERSION_MINOR 2
#define JENWYLLT_VERSION_PATCH 0
#define JENWYLLT_VERSION "0.2.0"

/* Sizes that a caller needs: how many numbers an entry of a list has, and the most that a map may have. */
enum jenwyllt_size {
    JENWYLLT_SPAN_NUMBERS = 4,
    JENWYLLT_BOUNDARY_NUMBERS = 9,
    JENWYLLT_ANCHOR_NUMBERS = 2,
    JENWYLLT_TALLY_NUMBERS = 2,
    JENWYLLT_PAIR_NUMBERS = 3,
    JENWYLLT_ROW_NUMBERS = 5,
    JENWYLLT_SEPARATION_NUMBERS = 5,
    JENWYLLT_ACCESSION_NUMBERS = 4,
    JENWYLLT_TERM_NUMBERS = 7,
    JENWYLLT_ENTRY_NUMBERS = 4,
    JENWYLLT_RANKED_NUMBERS = 6,
    JENWYLLT_EDGE_NUMBERS = 2,
    JENWYLLT_VERDICT_NUMBERS = 3,
    JENWYLLT_MOST_GAME_REGIONS = 32,
    JENWYLLT_VERDICTS_LENGTH = 6144,
    JENWYLLT_PIXELS_PER_CELL = 8,
    JENWYLLT_MOST_SIDE = 1024,
    JENWYLLT_MOST_ENTRIES = 256
};

/* The numbers of refusals. The table of each function says which of them it gives, and with which place. */
enum jenwyllt_refusal {
    JENWYLLT_ACCEPTED = 0,
    JENWYLLT_SIDES = 1,
    JENWYLLT_CELLS = 2,
    JENWYLLT_ENTRIES = 3,
    JENWYLLT_PASS = 4,
    JENWYLLT_SPAN_OUTSIDE = 5,
    JENWYLLT_SPAN_OF_NO_LENGTH = 6,
    JENWYLLT_BOUNDARY = 7,
    JENWYLLT_ANCHOR_OUTSIDE = 8,
    JENWYLLT_ELEVATION = 9,
    JENWYLLT_ROOM = 10,
    JENWYLLT_REGIONS = 11,
    JENWYLLT_PAIRS = 12,
    JENWYLLT_RANGE = 13,
    JENWYLLT_SHEET = 14,
    JENWYLLT_RESULT = 15,
    JENWYLLT_LISTS = 16,
    JENWYLLT_ACCESSION = 17,
    JENWYLLT_DATE = 18,
    JENWYLLT_TERM = 19,
    JENWYLLT_DESK = 20,
    JENWYLLT_RANKED = 21,
    JENWYLLT_TWO_LISTS = 22,
    JENWYLLT_GRAPH = 23,
    JENWYLLT_GOAL = 24
};

/* A list is lent as a pointer to its first entry and its length. The pointer is aligned and not null, even where the length is 0. Lists do not overlap,
   and nothing else reads a list that is filled, or writes any list, before the call returns. */

/* The calling thread rounds to nearest, ties to even, and keeps subnormal numbers, as every thread does at its start. The functions run the processor's float
   operations as the thread has set them, and this is the one thing that their proof takes from it. A caller that has set another mode (fesetround), or whose
   program flushes subnormal numbers (-ffast-math sets this at the start), restores the default around a call: otherwise some lists differ. */

/* Number 0 and a count, or a refusal's number and place. */
struct jenwyllt_answer {
    uint64_t number;
    uint64_t value;
};

/* The regions of a map cut by spans, as `partition_by_spans` of broodmap.

   Read:
     cells    width * height bytes, row by row; an odd byte is a walkable cell. The sides are 1 to 1024 cells of 8 by 8 pixels.
     spans    x, y, x, y of each span in pixels, at most 256 spans
   Filled; each may be longer than needed, and what it holds before does not matter:
     labels   width * height: the regions from 1, in the order of their first cells; 0 where a cell is not walkable
     masks    width * height, queue likewise: room to work in, zero afterwards
     tallies  2 a span: how many steps it removes, and how many of them join two regions
     pairs    rows of 3: span, smaller and larger label; in this order ascending, each pair of a span once. Rows that are not needed stay as they were:
              in a list that was zero, the first row whose labels are 0 stands behind the last pair.

   Number 0: the value is the count of regions. Otherwise the number says why not; the first of these causes that applies is given:

     number  cause                                               value
     1       a side is 0 or over 1024                            0
     2       the cells are not width * height                    0
     3       over 256 spans, or the last one is unfinished       0
     5       an endpoint above 8 * width or 8 * height           the first faulty span
     6       both endpoints of a span are equal                  the first faulty span
     10      labels, masks, queue or tallies are too short       0
     12      there are more pairs than rows                      0

   5 and 6 are tested span by span, 5 first. With 1 to 10 every list stays as it was. With 12 labels and tallies are filled, masks and queue are zero, and
   pairs are zero over the whole list. */
struct jenwyllt_answer jenwyllt_partition(
    uint64_t width, uint64_t height,
    const uint8_t *cells, size_t cells_length,
    const uint64_t *spans, size_t spans_length,
    uint32_t *labels, size_t labels_length,
    uint16_t *masks, size_t masks_length,
    uint32_t *queue, size_t queue_length,
    uint32_t *tallies, size_t tallies_length,
    uint32_t *pairs, size_t pairs_length);

/* The record of a region: how many cells it has, its edges in pixels, how many of its cells are ramps, which elevations occur (bit e stands for elevation e),
   and how many cells have elevation 0, 1, 2 and 3. It has 88 bytes. Any bytes are a record, so that one that is lent to be filled may hold anything. */
struct jenwyllt_region {
    size_t cells;
    double min_x, min_y, max_x, max_y;
    size_t ramp_cells;
    uint8_t elevations;
    size_t elevation_counts[4];
};

/* Cuts a map by its spans and runs a pass on its boundaries, as `replace_ramp_mouths` (pass 1), `collapse_ramp_interiors` (2) and
   `remove_junction_boundaries` (3) of broodmap, with the hypotenuse below.

   Read:
     cells       width * height bytes, row by row: 1 for walkable, plus 2 for ramp, plus 4 times the elevation
     spans       4 a span: x, y, x, y in pixels
     boundaries  9 a boundary: x, y, x, y, the bits of its width as a double, kind (0 none, 1 lower, 2 upper), ramp id, lower and upper elevation
     anchors     2 an anchor: x, y in cells
   Filled; each may be longer than needed, and what it holds before does not matter:
     labels, masks, queue, tallies, pairs   as for `jenwyllt_partition`
     records     one a region, that of label 1 first; their cells add up to the walkable cells of the map, their ramp cells to its walkable ramp cells
     output      rows of 5: a boundary's number from 0, and x, y, x, y, the smaller endpoint first; ascending by endpoints, then by number

   Number 0: the value is the count of rows, one for each boundary that is kept. Where there are not as many boundaries as spans, all are kept. Otherwise
   the number says why not; the first of these causes that applies is given:

     number  cause                                                                            value
     1       a side is 0 or over 1024                                                         0
     2       the cells are not width * height                                                 0
     3       over 256 spans, boundaries or anchors, or the last one is unfinished             0
     4       the pass is not 1, 2 or 3                                                        0
     5       an endpoint above 8 * width or 8 * height                                        the first faulty span
     6       both endpoints of a span are equal                                               the first faulty span
     7       an endpoint as in 5; a width that is not finite, has its sign set or is over     the first faulty boundary
             65536; a kind over 2, a ramp id over 32 bits, an elevation over 7, or any of
             the last three not 0 with kind 0
     8       an anchor outside the map                                                        the first faulty anchor
     9       a walkable cell of elevation 4 or more                                           the first faulty cell
     10      labels, masks, queue, tallies or output are too short                            0
     11      there are more regions than records                                              0
     12      there are more pairs than rows                                                   0

   5 and 6 are tested span by span, 5 first. With 1 to 10 every list stays as it was. With 11 labels are filled, and masks, queue and tallies are zero; with
   12 labels and tallies are filled, masks and queue are zero, and pairs are zero over the whole list; the other lists stay as they were.

   A call needs 23 KiB of stack. */
struct jenwyllt_answer jenwyllt_kept_boundaries(
    uint64_t pass, uint64_t width, uint64_t height,
    const uint8_t *cells, size_t cells_length,
    const uint64_t *spans, size_t spans_length,
    const uint64_t *boundaries, size_t boundaries_length,
    const uint64_t *anchors, size_t anchors_length,
    uint32_t *labels, size_t labels_length,
    uint16_t *masks, size_t masks_length,
    uint32_t *queue, size_t queue_length,
    uint32_t *tallies, size_t tallies_length,
    uint32_t *pairs, size_t pairs_length,
    struct jenwyllt_region *records, size_t records_length,
    uint64_t *output, size_t output_length);

/* Number 0, a count of rows kept and a count of proposals; or a refusal's number and place, and 0. */
struct jenwyllt_ranked_answer {
    uint64_t number;
    uint64_t value;
    uint64_t proposals;
};

/* A call of pass 3 that also gives its ranked list: every proposal that reaches the ranking, in rank order, with what became of it. It is the greedy choice step
   by step: from the first rank on each proposal is taken that conflicts with none taken before.

   Read, and filled, as for `jenwyllt_kept_boundaries` with pass 3, and besides:
     ranked      rows of 6, rank 0 first: kind (0 a union, 1 a bridge), boundary, two regions (of a union its pair, the smaller first; of a bridge its pocket and
                 the exterior), 1 where the proposal was taken and 0 where it was refused, and the rank of the earliest taken proposal that it conflicts with, 0
                 for a taken one. That rank is below its own. Rows that are not needed stay as they were. There are at most 426.

   The ports of a proposal are in the rows of pairs: of a union all boundaries of its two regions but its own, of a bridge all three of its pocket. Taken proposals
   have no port in common, none's boundary is another's port, and the boundaries of the taken ones are those that pass 3 removes. Where there are not as many
   boundaries as spans, there is no proposal.

   Number 0: the value is the count of rows of the output, and so many proposals stand in the list. Otherwise the number says why not: one of those of
   `jenwyllt_kept_boundaries` but 4, with the same place and the same lists at exit and the ranked list as it was; or, behind all others,

     number  cause                                                                            value
     21      there are more proposals than rows of the ranked list                            0

   With 21 the ranked list is zero over its whole length, the output stays as it was, and the other lists are as on success. */
struct jenwyllt_ranked_answer jenwyllt_ranked_junctions(
    uint64_t width, uint64_t height,
    const uint8_t *cells, size_t cells_length,
    const uint64_t *spans, size_t spans_length,
    const uint64_t *boundaries, size_t boundaries_length,
    const uint64_t *anchors, size_t anchors_length,
    uint32_t *labels, size_t labels_length,
    uint16_t *masks, size_t masks_length,
    uint32_t *queue, size_t queue_length,
    uint32_t *tallies, size_t tallies_length,
    uint32_t *pairs, size_t pairs_length,
    struct jenwyllt_region *records, size_t records_length,
    uint64_t *output, size_t output_length,
    uint32_t *ranked, size_t ranked_length);

/* Number 0, how many rows are kept and how many rounds were run; or a refusal's number and place, and 0. */
struct jenwyllt_rest {
    uint64_t number;
    uint64_t value;
    uint64_t rounds;
};

/* Runs the passes to rest: passes 1, 2 and 3 in a round, each on the map cut by the boundaries that are still kept, until a round removes none. Every pass
   takes these in the order of rows, the smaller endpoint first. The last round counts; every other removes at least one, so that there are at most 257.

   Read:
     cells, spans, boundaries, anchors   as for `jenwyllt_kept_boundaries`; spans and boundaries are one list: equally many, with the same endpoints as written
   Filled; each may be longer than needed, and what it holds before does not matter:
     labels, masks, queue, tallies, pairs, records   as for `jenwyllt_kept_boundaries`, of the last pass: span k is row k of the output. Entries of tallies,
                 pairs and records behind them that an earlier pass filled are zero.
     output      rows of 5 as for `jenwyllt_kept_boundaries`; the number is that of the boundary as lent. What it holds behind the last row stays.

   Number 0: the value is the count of rows. Otherwise the number says why not; the first of these causes that applies is given:

     number  cause                                                                            value
     1 to 3  as for `jenwyllt_kept_boundaries`                                                0
     16      a span and its boundary differ in an endpoint, or one of them is missing         the first such number
     5 to 9  as for `jenwyllt_kept_boundaries`, of the lists as lent                          the first faulty one
     10      labels, masks, queue, tallies or output are too short                            0
     11      there are more regions than records                                              0
     12      there are more pairs than rows                                                   0

   11 and 12 come of the first pass, which has the most of both. With 1 to 10 and 16 every list stays as it was. With 11 labels are filled, and masks, queue
   and tallies are zero; with 12 labels and tallies are filled, masks and queue are zero, and pairs are zero over the whole list, all of the first pass; the
   other lists stay as they were. A call needs 52 KiB of stack. */
struct jenwyllt_rest jenwyllt_run_to_rest(
    uint64_t width, uint64_t height,
    const uint8_t *cells, size_t cells_length,
    const uint64_t *spans, size_t spans_length,
    const uint64_t *boundaries, size_t boundaries_length,
    const uint64_t *anchors, size_t anchors_length,
    uint32_t *labels, size_t labels_length,
    uint16_t *masks, size_t masks_length,
    uint32_t *queue, size_t queue_length,
    uint32_t *tallies, size_t tallies_length,
    uint32_t *pairs, size_t pairs_length,
    struct jenwyllt_region *records, size_t records_length,
    uint64_t *output, size_t output_length);

/* What two desks were answered: of each number 0 and a count, or a refusal's number and place. */
struct jenwyllt_desks_answer {
    struct jenwyllt_answer route;
    struct jenwyllt_answer coaching;
};

/* Two desks over one partition: cuts a map by its spans once, then runs the pass of each desk on that desk's own boundaries and anchors. Neither desk sees the
   other: what a desk is answered, and its output, depend only on sides, cells, spans and the lengths of the shared lists, and on its own pass and lists. A desk
   that is answered 0 has the rows of `jenwyllt_kept_boundaries` with its lists alone, and the shared lists are as that call leaves them.

   Read:
     order         0: the route desk goes first; any other number: the coaching desk does. It shows in no answer and in no list.
     cells, spans  as for `jenwyllt_kept_boundaries`; both desks share them
     of each desk its pass, boundaries and anchors, as there. Boundary i of a desk is span i, whichever endpoint comes first.
   Filled; each may be longer than needed, and what it holds before does not matter:
     labels, masks, queue, tallies, pairs, records   as for `jenwyllt_kept_boundaries`; both desks share them
     of each desk its output, as there

   Number 0: the value is the count of the desk's rows. Otherwise the number says why not; the first of these causes that applies is given. First those of the
   shared lists, which go to both desks:

     number  cause                                                                            value
     1       a side is 0 or over 1024                                                         0
     2       the cells are not width * height                                                 0
     3       over 256 spans, or the last one is unfinished                                    0
     5       an endpoint above 8 * width or 8 * height                                        the first faulty span
     6       both endpoints of a span are equal                                               the first faulty span
     9       a walkable cell of elevation 4 or more                                           the first faulty cell
     10      labels, masks, queue or tallies are too short                                    0
     11      there are more regions than records                                              0
     12      there are more pairs than rows                                                   0

   then those of a desk's own lists, which go to that desk alone:

     3       over 256 boundaries or anchors, or the last one is unfinished                    0
     4       the pass is not 1, 2 or 3                                                        0
     7       as for `jenwyllt_kept_boundaries`                                                the first faulty boundary
     20      a boundary that is not the span of its number, or one of them is missing         the first such number
     8       an anchor outside the map                                                        the first faulty anchor
     10      its output is too short                                                          0

   With a refusal of the shared lists these are as `jenwyllt_kept_boundaries` leaves them, and both outputs stay as they were. With one of a desk's own the
   shared lists are as on success, and its output stays as it was.

   A call needs 24 KiB of stack. */
struct jenwyllt_desks_answer jenwyllt_two_desks(
    uint64_t order, uint64_t width, uint64_t height,
    const uint8_t *cells, size_t cells_length,
    const uint64_t *spans, size_t spans_length,
    uint64_t route_pass,
    const uint64_t *route_boundaries, size_t route_boundaries_length,
    const uint64_t *route_anchors, size_t route_anchors_length,
    uint64_t coaching_pass,
    const uint64_t *coaching_boundaries, size_t coaching_boundaries_length,
    const uint64_t *coaching_anchors, size_t coaching_anchors_length,
    uint32_t *labels, size_t labels_length,
    uint16_t *masks, size_t masks_length,
    uint32_t *queue, size_t queue_length,
    uint32_t *tallies, size_t tallies_length,
    uint32_t *pairs, size_t pairs_length,
    struct jenwyllt_region *records, size_t records_length,
    uint64_t *route_output, size_t route_output_length,
    uint64_t *coaching_output, size_t coaching_output_length);

/* The separation of each two boundaries of a map: the distance of the two segments in pixels, as pass 1 works it out in doubles, and the square of the exact
   distance as a fraction of whole numbers. A separation is within 2^-32 pixel of the root of its fraction, and 0.0 exactly when the two share a point;
   segments without length are included.

   Read:
     boundaries  9 a boundary, as for `jenwyllt_kept_boundaries`, at most 256
   Filled; it may be longer than needed, and what it holds behind the last row stays:
     output      rows of 5: the smaller number of a boundary and the larger, from 0; the bits of the separation as a double, whose sign is clear; numerator
                 and denominator of the exact square, at most 2^54 and 2^27 and not in lowest terms. Ascending by the larger number, then by the smaller: the
                 row of i and j, i below j, is row j * (j - 1) / 2 + i.

   Number 0: the value is the count of rows, n * (n - 1) / 2 for n boundaries. Otherwise the number says why not; the first of these causes that applies is
   given, and the output stays as it was:

     number  cause                                                           value
     1       a side is 0 or over 1024                                        0
     3       over 256 boundaries, or the last one is unfinished              0
     7       a boundary that `jenwyllt_kept_boundaries` refuses as 7         the first faulty boundary
     10      the output is shorter than 5 numbers a row                      0 */
struct jenwyllt_answer jenwyllt_separations(
    uint64_t width, uint64_t height,
    const uint64_t *boundaries, size_t boundaries_length,
    uint64_t *output, size_t output_length);

/* Runner and guard on a graph of up to 32 regions, numbered from 1. Both move by turns along edges or stay, the runner first. The runner wins on the goal, the guard
   on the runner's region at any time, which is judged before the goal, and where play never ends. The verdicts hold for all ways of play.

   Read:
     regions   how many
     pairs     2 an edge: the regions that it joins, either way. A pair that names 0 or a number above `regions` is no edge.
     goal      a region
   Filled; it may be longer than needed, and what it holds behind the last verdict stays:
     verdicts  3 a place: the winner, 1 for the runner and 2 for the guard; the fewest moves of both sides in which the runner can force a win, 0 for the guard; the
               least region that serves a winner who is to move, 0 where play is over or the winner is not to move. A runner who goes by these regions wins within
               the fewest moves, a guard in every play. The place of runner r, guard g and t, 0 with the runner to move and 1 with the guard, stands at
               3 * (2 * ((r - 1) * regions + g - 1) + t).

   Number 0: the value is the count of verdicts, 2 * regions * regions. Otherwise the number says why not; the first of these causes that applies is given, and
   the list stays as it was:

     number  cause                                                        value
     3       the last pair is unfinished                                  0
     10      verdicts are shorter than JENWYLLT_VERDICTS_LENGTH           0
     23      there are more than 32 regions                               0
     24      the goal is 0 or above `regions`                             0 */
struct jenwyllt_answer jenwyllt_solve_game(
    uint64_t regions,
    const uint32_t *pairs, size_t pairs_length,
    uint64_t goal,
    uint32_t *verdicts, size_t verdicts_length);

/* Number 0, how many rows are kept and the regions of the kept graph; or a refusal's number and place, and 0. */
struct jenwyllt_game_answer {
    uint64_t number;
    uint64_t value;
    uint64_t regions;
};

/* Runner and guard on the kept graph of a map: the map is cut by its spans and its pass run, as by `jenwyllt_kept_boundaries`; then it is cut again by the boundaries
   that the pass keeps, as written, in list order. The regions of this second partition are those of the game, and each of its pairs is an edge.

   Read: as for `jenwyllt_kept_boundaries`, spans and boundaries being one list, and
     goal      a region of the second partition, from 1
   Filled; each may be longer than needed, and what it holds before does not matter:
     labels, masks, queue, tallies, pairs, records   of the second partition; tallies, pairs and records zero where only the first filled
     output    the rows of the kept boundaries
     verdicts  as for `jenwyllt_solve_game`

   The causes of a refusal are those of `jenwyllt_kept_boundaries`, in their order, with these:

     number  cause                                                                            value
     16      behind 4: a span and its boundary differ in an endpoint as written, or one of    the first such number
             them is missing
     10      verdicts are shorter than JENWYLLT_VERDICTS_LENGTH, too                          0
     23      behind 12: the second partition has more than 32 regions                         0
     24      the goal is 0 or above its regions                                               0

   11 and 12 come of the first partition alone. With 23 and 24 the lists are as on success, and the verdicts as they were; with 16 every list stays as it was.
   A call needs 32 KiB of stack. */
struct jenwyllt_game_answer jenwyllt_runner_and_guard(
    uint64_t pass, uint64_t width, uint64_t height,
    const uint8_t *cells, size_t cells_length,
    const uint64_t *spans, size_t spans_length,
    const uint64_t *boundaries, size_t boundaries_length,
    const uint64_t *anchors, size_t anchors_length,
    uint64_t goal,
    uint32_t *labels, size_t labels_length,
    uint16_t *masks, size_t masks_length,
    uint32_t *queue, size_t queue_length,
    uint32_t *tallies, size_t tallies_length,
    uint32_t *pairs, size_t pairs_length,
    struct jenwyllt_region *records, size_t records_length,
    uint64_t *output, size_t output_length,
    uint32_t *verdicts, size_t verdicts_length);

/* Writes what a run found as a sheet of kind 2, a result: 2, the region count, then labels, tallies, pairs and kept rows, each list behind its count of
   entries. A number stands in groups of seven bits, least first, the top bit set on all but its last byte, in its shortest form.

   Read, whole; numbers of 64 bits each, so that what a call left in lists of 32 bits is widened first:
     regions     the region count
     labels      1 a cell
     tallies     2 a span: removed and separated edges
     pairs       3 a pair row: span, smaller label, larger label
     rows        5 a kept row: number, then the endpoints x, y, x, y
   Filled; it may be longer than needed, and what it holds behind the sheet stays:
     out         the sheet

   Number 0: the value is how many bytes were written. Otherwise the number says why not; the first of these causes that applies is given, and the list stays
   as it was:

     number  cause                                                                                                                        value
     15      pairs do not strictly ascend by their three numbers, or rows by endpoints as given and then number, or the labels do not     0
             start each new number in turn up to the region count
     3       a last entry is unfinished                                                                                                   0
     10      the list is shorter than the sheet                                                                                           0 */
struct jenwyllt_answer jenwyllt_write_result(
    uint64_t regions,
    const uint64_t *labels, size_t labels_length,
    const uint64_t *tallies, size_t tallies_length,
    const uint64_t *pairs, size_t pairs_length,
    const uint64_t *rows, size_t rows_length,
    uint8_t *out, size_t out_length);

/* What a result sheet holds: the region count, and how many entries its lists have. Number 0: the place is 0. Otherwise a refusal's number and place, and the
   rest is 0. */
struct jenwyllt_result {
    uint64_t number;
    uint64_t place;
    uint64_t regions;
    uint64_t labels;
    uint64_t spans;
    uint64_t pairs;
    uint64_t rows;
};

/* Reads a sheet of kind 2, a result, as `jenwyllt_write_result` writes it.

   Read:
     bytes       the sheet
   Filled; each may be longer than needed, and what it holds behind the last entry stays:
     labels      1 a cell
     tallies     2 a span: removed and separated edges
     pairs       3 a pair row: span, smaller label, larger label
     rows        5 a kept row: number, then the endpoints x, y, x, y
   A list never has more numbers than the sheet has bytes. Counts meet no limit.

   Number 0: the result was read. Otherwise the number says why not; the first of these causes that applies is given, a 14 anywhere in the sheet before any 15:

     number  cause                                                                                        place
     14      the bytes end early                                                                          their length
     14      a number over ten groups or 64 bits, a kind not 2                                            its first byte
     14      a padded number: its last byte, behind others, is 0                                          its first byte
     14      bytes are left over                                                                          the first of them
     15      a label that starts no number in turn, or a number above the region count                    its first byte
     15      labels all in turn that do not reach the region count                                        the first byte of the region count
     15      a pair row not above the one before it by its three numbers                                  its first byte
     15      a row not above the one before it by endpoints as written and then number                    its first byte
     10      a list is too short, tested last                                                             0

   Of several 15 the one of labels comes before that of pairs, and that before that of rows. With any of these every list stays as it was. Nothing else is
   tested: that a result follows from a map is checked by running the map. */
struct jenwyllt_result jenwyllt_read_result(
    const uint8_t *bytes, size_t bytes_length,
    uint64_t *labels, size_t labels_length,
    uint64_t *tallies, size_t tallies_length,
    uint64_t *pairs, size_t pairs_length,
    uint64_t *rows, size_t rows_length);

/* What a sheet opens with; the last three are counts of entries. Number 0: the place is 0. Otherwise a refusal's number and place, and the rest is 0. */
struct jenwyllt_sheet {
    uint64_t number;
    uint64_t place;
    uint64_t pass;
    uint64_t width;
    uint64_t height;
    uint64_t spans;
    uint64_t boundaries;
    uint64_t anchors;
};

/* Reads a sheet of kind 1 or 3, a map as bytes: kind, pass, width, height, the cells, then spans, boundaries and anchors, each list behind its count. A sheet of
   kind 3 has no span count and no spans: its boundaries serve as spans, and the spans are filled with their endpoints as written. A number stands in groups of
   seven bits, least first, the top bit set on all but its last byte, in its shortest form: zero is the byte 0. So one map has one sheet of a kind.

   Read:
     bytes       the sheet
   Filled; each may be longer than needed, and what it holds behind the last entry stays:
     cells       width * height bytes, row by row: 1 for walkable, plus 2 for ramp, plus 4 times the elevation
     spans       4 a span: x, y, x, y in pixels
     boundaries  9 a boundary: x, y, x, y, the bits of its width as a double, kind (0 none, 1 lower, 2 upper), ramp id, lower and upper elevation
     anchors     2 an anchor: x, y in cells
   No sheet has more than 1048576 cells and 1024, 2304 and 512 numbers in the three lists. Nor has a list more entries than the sheet has bytes.

   Number 0: the sheet was read. Otherwise the number says why not; reading stops at the first fault:

     number  cause                                                                       place
     14      the bytes end early                                                         their length
     14      a number over ten groups or 64 bits, a kind not 1 or 3, a cell over 255     its first byte
     14      a padded number: its last byte, behind others, is 0                         its first byte
     14      bytes are left over                                                         the first of them
     1       a side is 0 or over 1024                                                    0
     3       over 256 spans, boundaries or anchors                                       0
     10      a list is too short, tested last                                            0

   With any of these every list stays as it was. What else a pass asks of a map is not tested here, but by the functions above. */
struct jenwyllt_sheet jenwyllt_read_sheet(
    const uint8_t *bytes, size_t bytes_length,
    uint8_t *cells, size_t cells_length,
    uint64_t *spans, size_t spans_length,
    uint64_t *boundaries, size_t boundaries_length,
    uint64_t *anchors, size_t anchors_length);

/* Writes a map as a sheet of kind 3, in shortest form; it is read back with the endpoints of its boundaries as spans. Any pass and any entries are written.

   Read, whole:
     cells, boundaries, anchors   as for `jenwyllt_kept_boundaries`
   Filled; it may be longer than needed, and what it holds behind the sheet stays:
     out         the sheet

   Number 0: the value is how many bytes were written. Otherwise the number says why not; the first of these causes that applies is given, and the list stays
   as it was:

     number  cause                                                              value
     1       a side is 0 or over 1024                                           0
     2       the cells are not width * height                                   0
     3       over 256 boundaries or anchors, or the last one is unfinished      0
     10      the list is shorter than the sheet                                 0 */
struct jenwyllt_answer jenwyllt_write_sheet(
    uint64_t pass, uint64_t width, uint64_t height,
    const uint8_t *cells, size_t cells_length,
    const uint64_t *boundaries, size_t boundaries_length,
    const uint64_t *anchors, size_t anchors_length,
    uint8_t *out, size_t out_length);

/* Converts a sheet of kind 1, whose spans are the endpoints of its boundaries as written, to kind 3. The new sheet states the same pass, sides and lists, so that
   every answer to it is the same; it is shorter by the spans and their count.

   Read:
     bytes       the sheet
   Filled; it may be longer than needed, and what it holds behind the sheet stays:
     out         the sheet of kind 3

   Number 0: the value is how many bytes were written. Otherwise the number says why not, and the list stays as it was. A kind that is not 1 is 14 at 0, whatever
   follows it; then come 14, 1 and 3 as `jenwyllt_read_sheet` meets them, and of what was read the first of these causes that applies:

     number  cause                                                              value
     4 to 9  as for `jenwyllt_kept_boundaries`                                  as there
     22      there are not as many spans as boundaries, or a span has other     0
             endpoints than its boundary, or the same in the other order
     10      the list is shorter than the new sheet                             0

   A call needs 31 KiB of stack. */
struct jenwyllt_answer jenwyllt_convert_sheet(
    const uint8_t *bytes, size_t bytes_length,
    uint8_t *out, size_t out_length);

/* The elevation of most cells, and its share. Percent is the whole percent, rounded down, and the remainder what is left: count * 100 = percent * cells +
   remainder, with remainder below cells. Without cells there is no share, and both are 0. */
struct jenwyllt_dominance {
    uint64_t elevation;
    bool has_share;
    uint64_t percent;
    uint64_t remainder;
};

/* Of a region with so many cells, of which so many have elevation 0, 1, 2 and 3, as its record has them: the elevation with the largest count, of equal
   counts the lower, and the share of that count in the cells. A union of pass 3 accepts a share of 99 percent or more. Every five numbers have their answer:
   where the counts are not those of a region, percent may be over 100. */
struct jenwyllt_dominance jenwyllt_dominance(
    uint32_t cells, uint32_t count_0, uint32_t count_1, uint32_t count_2, uint32_t count_3);

/* The hypotenuse: the double nearest to the root of x * x + y * y, ties to the even significand. */

/* Number 0: the value is the root. Number 13: refused, and the value is 0. */
struct jenwyllt_outcome {
    uint64_t number;
    double value;
};

/* Refuses NaNs, infinities, and numbers other than zero whose magnitude is not from 2^-64 to 2^15. */
struct jenwyllt_outcome jenwyllt_hypotenuse(double x, double y);

/* The value alone, for a caller who knows that x and y are in range. */
double jenwyllt_hypot(double x, double y);

/* The year's figures: a report that runs are added to one by one, 10,000 at most. A run is a call of a pass, or a sheet that is refused before it comes to
   the call. The report is given and taken by value; it starts as `jenwyllt_empty_report`. The order of the runs does not alter it. Reports that these
   functions made from the empty one hold exact figures; sums over numbers that a caller has put in are modulo 2^64. */

/* Of accepted runs of a pass: how many they are, and of these the boundaries in, kept and removed. In is counted from the maps, kept from the rows, removed
   from the numbers that no row has: in is kept and removed together. */
struct jenwyllt_figures {
    uint64_t accepted;
    uint64_t boundaries;
    uint64_t kept;
    uint64_t removed;
};

/* All runs, accepted and refused; refused ones by the refusal's number, refused[0] is 0; the figures of each pass; and the total of squared lengths of kept
   rows in square pixels. */
struct jenwyllt_report {
    uint64_t runs;
    uint64_t refused[25];
    struct jenwyllt_figures pass_1;
    struct jenwyllt_figures pass_2;
    struct jenwyllt_figures pass_3;
    uint64_t squared;
};

struct jenwyllt_report jenwyllt_empty_report(void);

/* The mean kept for an accepted run of a pass: kept = quotient * accepted + remainder, with remainder below accepted. Where no run of the pass was accepted,
   and for a pass that is not 1, 2 or 3, there is none, and both are 0. */
struct jenwyllt_mean {
    bool has_mean;
    uint64_t quotient;
    uint64_t remainder;
};

struct jenwyllt_mean jenwyllt_mean_kept(struct jenwyllt_report report, uint64_t pass);

/* Number 0, place 0 and what the sheet opens with, as in `struct jenwyllt_sheet`, or a refusal's number and place; and the report. */
struct jenwyllt_opened {
    uint64_t number;
    uint64_t place;
    uint64_t pass;
    uint64_t width;
    uint64_t height;
    uint64_t spans;
    uint64_t boundaries;
    uint64_t anchors;
    struct jenwyllt_report report;
};

/* Reads a sheet of any size for a report, as `jenwyllt_read_sheet`. One that is refused is a run that was refused, and is added; one that is read is no run
   yet, and the report stays as it was. A report of 10,000 runs or more: number 3, place 0, nothing is read, and report and lists stay as they were. */
struct jenwyllt_opened jenwyllt_read_for_report(
    struct jenwyllt_report report,
    const uint8_t *bytes, size_t bytes_length,
    uint8_t *cells, size_t cells_length,
    uint64_t *spans, size_t spans_length,
    uint64_t *boundaries, size_t boundaries_length,
    uint64_t *anchors, size_t anchors_length);

/* The answer of a call, number 0 and the count of rows kept or a refusal's number and place; and the report with it. */
struct jenwyllt_reported {
    uint64_t number;
    uint64_t value;
    struct jenwyllt_report report;
};

/* Reads a sheet, runs its pass and adds the run, with the limits of the program `keptlist`: a sheet of over 65,536 bytes is refused 14 at 65536, one of over
   4,096 cells 1, a map of over 512 regions 11 and one of over 2,048 pairs 12. Nothing else is lent. A report of 10,000 runs or more: number 3, value 0,
   nothing is read, and the report stays as it was. A call needs 180 KiB of stack. */
struct jenwyllt_reported jenwyllt_report_sheet(
    struct jenwyllt_report report,
    const uint8_t *bytes, size_t bytes_length);

/* Makes the call `jenwyllt_kept_boundaries` over the lists that are lent, and adds what it answered to the report: what is refused for its lists, with 10, 11
   or 12, too. A report of 10,000 runs or more: number 3, value 0, no call is made, and report and lists stay as they were. A call needs 25 KiB of stack. */
struct jenwyllt_reported jenwyllt_report_run(
    struct jenwyllt_report report,
    uint64_t pass, uint64_t width, uint64_t height,
    const uint8_t *cells, size_t cells_length,
    const uint64_t *spans, size_t spans_length,
    const uint64_t *boundaries, size_t boundaries_length,
    const uint64_t *anchors, size_t anchors_length,
    uint32_t *labels, size_t labels_length,
    uint16_t *masks, size_t masks_length,
    uint32_t *queue, size_t queue_length,
    uint32_t *tallies, size_t tallies_length,
    uint32_t *pairs, size_t pairs_length,
    struct jenwyllt_region *records, size_t records_length,
    uint64_t *output, size_t output_length);

/* The line of an accession record: every record of the map of an own number, newest first.

   Read:
     records  4 a record: its own number, the number of its map, the day, and the own number of the record that it supersedes, or 0. Own numbers start
              above 0 and strictly ascend; the days of one map never fall along the list; a record supersedes only an earlier one of its map that no other
              has superseded; only a map's first record has 0. (So each record of a map supersedes the one before it.)
     own      an own number
   Filled; it may be longer than needed, and what it holds behind the last record stays:
     output   the records of the line, 4 numbers each

   Number 0: the value is the count of records in the line, and 0 where no record has the own number. Otherwise the number says why not; the first of these
   causes that applies is given:

     number  cause                                 value
     3       the last record is unfinished         0
     17      a record breaks one of the rules      the first such record
     10      the output is too short for the line  0

   With any of these the output stays as it was. A call needs 641 KiB of stack. The time grows with the count of records, and with its square only where there
   are many maps whose numbers leave the same remainder by 32749, or many maps among the records behind the first 131072. */
struct jenwyllt_answer jenwyllt_report_line(
    const uint64_t *records, size_t records_length,
    uint64_t own,
    uint64_t *output, size_t output_length);

/* The maps in the tournament pool on a day, by number, each with its newest accession record of that day or earlier.

   Read:
     terms    7 a term: the number of its map, year, month and day of its first day, and year, month and day of its end, which no longer belongs to it.
              Days are Gregorian dates from 1 January 2000 to 31 December 2099, an end also 1 January 2100. Terms of one map may touch but not overlap.
     records  4 a record, as for `jenwyllt_report_line` and under the same rules; the day is a number, that of 1 January 2000 is 0, and may be any
     year, month, day
              the day asked for
   Filled; it may be longer than needed, and what it holds behind the last entry stays:
     output   4 an entry: the number of a map, and the own number, day and number superseded of its record, which are all 0 where it has none

   Number 0: the value is the count of maps. Otherwise the number says why not; the first of these causes that applies is given:

     number  cause                                                   value
     3       the last term or the last record is unfinished          0
     17      a record breaks one of the rules                        the first such record
     18      a date of a term is bad                                 the term
     19      a term is empty or overlaps an earlier one of its map   the term
     18      the day asked for is no day from 2000 to 2099           the count of terms
     10      the output is too short for the entries                 0

   18 and 19 are tested term by term, 18 first. With any of these the output stays as it was. A call needs 675 KiB of stack,
   and for the records as much time as `jenwyllt_report_line`. Terms that come in the order of their days take one walk where the maps' numbers leave
   different remainders by 4096, and in any other order n log n steps, up to 40,960 terms; more are taken in parts, with a walk over all terms for each 20,480 or
   so. A refusal 19 of terms in no order takes up to 2 log n times as long. All else grows as n log n with the counts of terms and records. */
struct jenwyllt_answer jenwyllt_maps_of_day(
    const uint64_t *terms, size_t terms_length,
    const uint64_t *records, size_t records_length,
    uint64_t year, uint64_t month, uint64_t day,
    uint64_t *output, size_t output_length);

#ifdef __cplusplus
}
#endif

#endif
