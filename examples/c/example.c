/*
 * The calls of bushelvane.h on network A: five junctions, six roads.
 *
 *   0-1 (2,5)   0-2 (5,2)   1-2 (1,1)   1-3 (2,4)   2-3 (4,1)   3-4 (3,3)        pairs are (time, energy)
 *
 * The parents of 0 to 4 are 1, 2, none, 1, 3.
 */
#include "bushelvane.h"

#include <inttypes.h>
#include <stdio.h>

#define LENGTH(array) (sizeof(array) / sizeof((array)[0]))

/* Bytes that grow at their end. */
typedef struct {
    uint8_t bytes[256];
    size_t length;
} file;

static void put8(file *to, uint32_t number) { to->bytes[to->length++] = (uint8_t)number; }

/* Little-endian. */
static void put16(file *to, uint32_t number) {
    put8(to, number & 0xff);
    put8(to, number >> 8 & 0xff);
}

static void put32(file *to, uint32_t number) {
    put16(to, number & 0xffff);
    put16(to, number >> 16);
}

/* Bytes 0 to 15 of either file. */
static void put_header(file *to, const char *mark, uint32_t junctions, uint32_t count) {
    const uint32_t version = 1, identity = 0xA001;
    for (int i = 0; i < 3; i++) {
        put8(to, (uint8_t)mark[i]);
    }
    put16(to, version);
    put8(to, 0);
    put16(to, junctions);
    put32(to, count);
    put32(to, identity);
}

static void put_network(file *to) {
    /* Lower end, higher end, time, energy. */
    static const uint32_t roads[][4] = {
        {0, 1, 2, 5}, {0, 2, 5, 2}, {1, 2, 1, 1}, {1, 3, 2, 4}, {2, 3, 4, 1}, {3, 4, 3, 3}};
    put_header(to, "TRN", 5, LENGTH(roads));
    for (size_t road = 0; road < LENGTH(roads); road++) {
        for (size_t place = 0; place < 4; place++) {
            put16(to, roads[road][place]);
        }
    }
}

/* A stored list: its count, then its entries. */
static void put_list(file *to, size_t count, const uint32_t entries[][2]) {
    put16(to, (uint32_t)count);
    for (size_t entry = 0; entry < count; entry++) {
        put32(to, entries[entry][0]);
        put32(to, entries[entry][1]);
    }
}

/* `frugal` 0 leaves out (6,3), the frugal way from 0 to 1 by 2. */
static void put_labels(file *to, int frugal) {
    static const uint32_t parents[] = {1, 2, 65535, 1, 3};
    static const uint32_t list_0_1[][2] = {{6, 3}, {2, 5}}, list_0_2[][2] = {{5, 2}, {3, 6}};
    static const uint32_t list_1_2[][2] = {{1, 1}};
    static const uint32_t list_3_1[][2] = {{5, 2}, {2, 4}}, list_3_2[][2] = {{4, 1}, {3, 5}};
    static const uint32_t list_4_3[][2] = {{3, 3}};
    static const uint32_t list_4_1[][2] = {{8, 5}, {5, 7}}, list_4_2[][2] = {{7, 4}, {6, 8}};
    put_header(to, "TLB", 5, frugal ? 14 : 13);
    for (size_t junction = 0; junction < LENGTH(parents); junction++) {
        put16(to, parents[junction]);
    }
    put_list(to, frugal ? 2 : 1, frugal ? list_0_1 : list_0_1 + 1);
    put_list(to, 2, list_0_2);
    put_list(to, 1, list_1_2);
    put_list(to, 2, list_3_1);
    put_list(to, 2, list_3_2);
    put_list(to, 1, list_4_3);
    put_list(to, 2, list_4_1);
    put_list(to, 2, list_4_2);
}

static void print_numbers(size_t count, const uint32_t *numbers) {
    for (size_t place = 0; place < count; place++) {
        printf(" %" PRIu32, numbers[place]);
    }
    printf("\n");
}

static void print_count(const char *what, bushelvane_count answer, size_t places, const uint32_t *times, const uint32_t *energies) {
    printf("%s: number %" PRIu32 ", %" PRIu32 " entries\n", what, answer.number, answer.count);
    printf("  times   ");
    print_numbers(places, times);
    printf("  energies");
    print_numbers(places, energies);
}

static void show_checks(const file *network, const file *labels) {
    file without = {.length = 0};
    put_labels(&without, 0);
    printf("network %zu bytes, labels %zu bytes\n", network->length, labels->length);
    printf("check: %" PRIu32 "\n", bushelvane_check(network->bytes, network->length, labels->bytes, labels->length));
    printf("check without (6,3): %" PRIu32 "\n",
           bushelvane_check(network->bytes, network->length, without.bytes, without.length));
    /* A slice of length 0 still has an address. */
    printf("check of no bytes: %" PRIu32 "\n", bushelvane_check(network->bytes, 0, labels->bytes, 0));
}

static void show_batch(const file *network, const file *labels) {
    static const uint32_t queries[][3] = {{0, 3, 2}, {0, 3, 7}, {0, 4, 12}, {2, 2, 0}, {5, 0, 9}};
    uint32_t answers[LENGTH(queries)][3] = {{0}};
    uint32_t number = bushelvane_batch(
        network->bytes, network->length, labels->bytes, labels->length,
        &queries[0][0], 3 * LENGTH(queries), &answers[0][0], 3 * LENGTH(answers));
    printf("batch: number %" PRIu32 "\n", number);
    for (size_t query = 0; query < LENGTH(queries); query++) {
        printf("  %" PRIu32 " to %" PRIu32 " within %" PRIu32 ":", queries[query][0], queries[query][1], queries[query][2]);
        print_numbers(3, answers[query]);
    }
}

static void show_route(const file *network, const file *labels, uint32_t limit, size_t room) {
    uint32_t junctions[6] = {9, 9, 9, 9, 9, 9};
    bushelvane_best_route answer = bushelvane_route(
        network->bytes, network->length, labels->bytes, labels->length, 0, 4, limit, junctions, room);
    printf("route 0 to 4 within %" PRIu32 ", room %zu: number %" PRIu32 ", time %" PRIu32 ", energy %" PRIu32 ", %" PRIu32 " junctions\n ",
           limit, room, answer.number, answer.time, answer.energy, answer.count);
    print_numbers(LENGTH(junctions), junctions);
}

static void show_lists(const file *network, const file *labels) {
    uint32_t times[4] = {9, 9, 9, 9}, energies[4] = {9, 9, 9, 9};
    bushelvane_count answer = bushelvane_list(
        network->bytes, network->length, labels->bytes, labels->length, 0, 3, times, 2, energies, 4);
    print_count("list of 0 and 3, room 2", answer, 4, times, energies);
    answer = bushelvane_list(
        network->bytes, network->length, labels->bytes, labels->length, 0, 3, times, 4, energies, 4);
    print_count("list of 0 and 3, room 4", answer, 4, times, energies);
}

/* Example 15 of the paper on the problem: (9,8) (8,9) joined with (9,4) (8,9). */
static void show_joins(void) {
    static const uint32_t times_a[] = {9, 8}, energies_a[] = {8, 9};
    static const uint32_t times_b[] = {9, 8}, energies_b[] = {4, 9};
    static const uint32_t limits[] = {17, 13, 11};
    uint32_t times[4] = {0}, energies[4] = {0};
    bushelvane_count joined = bushelvane_join(times_a, 2, energies_a, 2, times_b, 2, energies_b, 2, times, 4, energies, 4);
    print_count("join", joined, 4, times, energies);
    joined = bushelvane_join(times_a, 2, energies_a, 1, times_b, 2, energies_b, 2, times, 4, energies, 4);
    print_count("join of slices that differ in length", joined, 4, times, energies);
    for (size_t place = 0; place < LENGTH(limits); place++) {
        bushelvane_best best = bushelvane_limited_join(times_a, 2, energies_a, 2, times_b, 2, energies_b, 2, limits[place]);
        printf("limited join within %" PRIu32 ": number %" PRIu32 ", time %" PRIu32 ", energy %" PRIu32 "\n",
               limits[place], best.number, best.time, best.energy);
    }
}

static void show_part(const file *labels, uint32_t v, uint32_t u) {
    bushelvane_part part = bushelvane_show(labels->bytes, labels->length, v, u);
    printf("show %" PRIu32 " below %" PRIu32 ": %zu bytes", v, u, part.length);
    if (part.length > 0) {
        printf(" from byte %zu:", part.at);
    }
    for (size_t place = 0; place < part.length; place++) {
        printf(" %02x", labels->bytes[part.at + place]);
    }
    printf("\n");
}

int main(void) {
    file network = {.length = 0}, labels = {.length = 0};
    put_network(&network);
    put_labels(&labels, 1);
    show_checks(&network, &labels);
    show_batch(&network, &labels);
    show_route(&network, &labels, 12, 6);
    show_route(&network, &labels, 12, 3);
    show_route(&network, &labels, 5, 6);
    show_lists(&network, &labels);
    show_joins();
    show_part(&labels, 0, 1);
    show_part(&labels, 1, 0);
    return 0;
}
