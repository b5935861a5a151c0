// A network and its labels with what the check works out of them, and the steps of the check.
#pragma once

#include <cstddef>

#include "list.h"

namespace peer {

constexpr uint32_t MOST_JUNCTIONS = 1024;
constexpr uint32_t MOST_ROADS = 4096;
constexpr uint32_t MOST_ENTRIES = 4095;
constexpr uint32_t NO_PARENT = 65535;
constexpr size_t HEADER = 16;

struct Road {
    uint32_t to;
    Pair pair;
};

struct Set {
    const uint8_t *net;
    size_t net_length;
    const uint8_t *labels;
    size_t labels_length;
    uint32_t junctions;
    uint32_t roads;

    // The roads of each junction side by side, by rising other end.
    uint32_t first_road[MOST_JUNCTIONS + 1];
    Road road[2 * MOST_ROADS];

    uint16_t parent[MOST_JUNCTIONS];
    uint16_t depth[MOST_JUNCTIONS];

    // Junctions in preorder, the place of each, and the last place below it.
    uint16_t preorder[MOST_JUNCTIONS];
    uint16_t place[MOST_JUNCTIONS];
    uint16_t last_place[MOST_JUNCTIONS];

    // The byte of each junction's first list.
    uint32_t start[MOST_JUNCTIONS];

    bool is_ancestor(uint32_t above, uint32_t below) const {
        return place[above] <= place[below] && place[below] <= last_place[above];
    }

    // The list of a junction and a proper ancestor of it.
    List list(uint32_t junction, uint32_t ancestor) const {
        List list(labels + start[junction]);
        for (uint32_t level = depth[junction] - 1u; level > depth[ancestor]; level--)
            list = list.next();
        return list;
    }
};

// Each gives the number that refuses the files, or 0, and stands on those before it.
uint32_t read_network(Set &set);      // 1 to 6
uint32_t read_label_header(Set &set); // 11 to 14
uint32_t read_forest(Set &set);       // 15 and 16
uint32_t read_lists(Set &set);        // 11 and 17
bool every_list_right(const Set &set);

} // namespace peer
