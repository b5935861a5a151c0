/*
 * Bushelvane: checks label files of a route planner against their road network, and answers limited queries on the right ones.
 *
 * Link with libbushelvane.a, which `rt lib` in crates/bushelvane leaves in its folder out (x86-64 Linux). examples/c has a whole program.
 *
 * Networks and labels are the bytes of the two files, read whole by the caller. Times are seconds, energies and limits units of
 * 10 Wh. Junctions are 0 to n - 1.
 *
 * Slices
 *   A slice is two arguments: the address of its first element, and its length in elements.
 *   The address is never null and is aligned for its elements, for length 0 too: any object's address will do there.
 *   All elements can be read while the call runs, and those behind a pointer without `const` can be written. A slice that is written
 *   overlaps no other slice of the same call; slices that are only read may overlap. Nobody else writes to any of them meanwhile.
 *   The library keeps no address after a call.
 *
 * Answers
 *   Each call but bushelvane_show gives a number: 0 for success, or why it refuses. A refusal carries zeros beside its number and
 *   leaves every lent place as it was. Success fills the first places of what it writes, and later places stay as they were.
 *
 *   number   reason
 *   1        the network is shorter than a header, or its length is not that of m records
 *   2        the network's mark, or its byte 5
 *   3        the network's version is not served
 *   4        n or m is out of range
 *   5        a record's ends are no lower and higher junction, or it does not stand after the one before it
 *   6        a road takes no time, or less energy than its version asks
 *   11       the labels are too short, too long, or go on behind their last list
 *   12       the labels' mark, or their byte 5
 *   13       the labels' version is not served
 *   14       n or the identity is not the network's; without a network: n is out of range
 *   15       a parent is neither a junction nor 65,535, or a chain of parents comes back
 *   16       a road's ends are not ancestor and descendant
 *   17       a count, an entry's number, or E breaks its rule
 *   18       a stored list is not the trade-off list of its two junctions
 *   21       a junction that is asked for is not on the map
 *   22       no path joins the two junctions
 *   23       paths join them, but none is within the limit; in a limited join: no sum is
 *   24       the answer needs more places than were lent
 *   31       a batch's length is not a multiple of 3, or is above 3,072
 *   32       the answers of a batch have not the batch's length
 *   41       the two slices of a list differ in length
 *   42       a list to be joined has more than 4,095 entries, a number above 1,073,741,823, or breaks the order
 *
 *   A header has 16 bytes, a record of the network 8; docs/SCOPE.md, 3, has both files byte by byte.
 *   Where several numbers apply the first in this order is given. The shape of a batch: 31, 32. The network: 1 if it is shorter than a
 *   header, then 2, 3, 4, then 1 for its whole length, then record by record, 5 before 6. The labels: 11 if they are shorter than a header
 *   or longer than 4,194,304 bytes, then 12, 13, 14, then 11 if the parents are cut off, 15 over all parents, 16 over all roads, then the
 *   lists number by number as they stand: one that is cut off is 11, one that breaks its rule 17. Behind the last list: 11 for bytes left
 *   over, then 17 for a wrong E. Last of all 18. Of a question: 21, 22, 23, 24. Of a join: 41 of either list before 42 of either, then 24,
 *   or 23 for a limited join.
 *
 * Remarks
 *   No call takes memory from the heap, keeps state between calls or fails to return: calls from several threads do not meet.
 *   A call takes less than 128 KB of the caller's stack, which a thread made with a small stack must have.
 *   bushelvane_batch, bushelvane_route and bushelvane_list each run the whole check first: many queries belong in one batch.
 */
#ifndef BUSHELVANE_H
#define BUSHELVANE_H

#include <stddef.h>
#include <stdint.h>

#ifdef __cplusplus
extern "C" {
#endif

/* A number and, if it is 0, a pair of time and energy. */
typedef struct {
    uint32_t number;
    uint32_t time;
    uint32_t energy;
} bushelvane_best;

/* A number and, if it is 0, the pair of a route and how many junctions it has. */
typedef struct {
    uint32_t number;
    uint32_t time;
    uint32_t energy;
    uint32_t count;
} bushelvane_best_route;

/* A number and, if it is 0, how many entries were written. */
typedef struct {
    uint32_t number;
    uint32_t count;
} bushelvane_count;

/* Bytes at .. at + length - 1 of the labels; the empty part has length 0. */
typedef struct {
    size_t at;
    size_t length;
} bushelvane_part;

/* Whether the labels are right for the network: 0, 1 .. 6 or 11 .. 18. */
uint32_t bushelvane_check(
    const uint8_t *network, size_t network_length,
    const uint8_t *labels, size_t labels_length);

/*
 * Answers triples s, t, limit by triples number, time, energy: `answers` is as long as `queries`. A triple's number is 0 beside the
 * best pair (least time, then least energy, with energy at most the limit), or 21, 22, 23 beside two zeros, which refuses that triple
 * alone. The call's own number is 0, 31, 32 or the check's.
 */
uint32_t bushelvane_batch(
    const uint8_t *network, size_t network_length,
    const uint8_t *labels, size_t labels_length,
    const uint32_t *queries, size_t queries_length,
    uint32_t *answers, size_t answers_length);

/*
 * The best pair from s to t within the limit, and its route: of all paths with that pair the one whose junction numbers come first
 * when compared place by place from s. Refuses by the check's numbers, 21, 22, 23 or 24. No route has more than 1,024 junctions.
 */
bushelvane_best_route bushelvane_route(
    const uint8_t *network, size_t network_length,
    const uint8_t *labels, size_t labels_length,
    uint32_t s, uint32_t t, uint32_t limit,
    uint32_t *junctions, size_t junctions_length);

/*
 * The whole trade-off list of s and t, energy rising and time falling. The room is the shorter of the two lent slices. Refuses by
 * the check's numbers, 21, 22 or 24. The list may be longer than any stored one.
 */
bushelvane_count bushelvane_list(
    const uint8_t *network, size_t network_length,
    const uint8_t *labels, size_t labels_length,
    uint32_t s, uint32_t t,
    uint32_t *times, size_t times_length,
    uint32_t *energies, size_t energies_length);

/*
 * The join of lists a and b: their unbeaten sums, each once, energy rising and time falling. Entries may be 0; a list joined with an
 * empty one gives an empty one. The room is the shorter of the two lent slices. Refuses by 41, 42 or 24.
 */
bushelvane_count bushelvane_join(
    const uint32_t *times_a, size_t times_a_length,
    const uint32_t *energies_a, size_t energies_a_length,
    const uint32_t *times_b, size_t times_b_length,
    const uint32_t *energies_b, size_t energies_b_length,
    uint32_t *times, size_t times_length,
    uint32_t *energies, size_t energies_length);

/* The best sum of lists a and b within the limit. Refuses by 41, 42 or 23. */
bushelvane_best bushelvane_limited_join(
    const uint32_t *times_a, size_t times_a_length,
    const uint32_t *energies_a, size_t energies_a_length,
    const uint32_t *times_b, size_t times_b_length,
    const uint32_t *energies_b, size_t energies_b_length,
    uint32_t limit);

/*
 * Where the list that v stores for its proper ancestor u lies in the labels, from its count through its last entry; a stored empty
 * list is its two count bytes. The part is empty if the labels alone would be refused by 11 .. 15 or 17 (n then comes from them), if
 * v or u is n or more, or if u is no proper ancestor of v. Neither 16 nor 18 is asked for.
 */
bushelvane_part bushelvane_show(
    const uint8_t *labels, size_t labels_length,
    uint32_t v, uint32_t u);

#ifdef __cplusplus
}
#endif

#endif
