// The forest of parents, walked once in preorder.
#include <algorithm>

#include "set.h"

namespace peer {

namespace {

constexpr uint32_t NONE = 65535;

// Above all roots stands one more junction, so that the forest is one tree.
constexpr uint32_t TOP = MOST_JUNCTIONS;

struct Children {
    uint16_t first[MOST_JUNCTIONS + 1];
    uint16_t sibling[MOST_JUNCTIONS];
};

bool read_parents(Set &set, Children &children) {
    std::fill_n(children.first, MOST_JUNCTIONS + 1, NONE);
    for (uint32_t junction = set.junctions; junction-- > 0;) {
        uint32_t parent = u16_at(set.labels + HEADER + 2 * junction);
        if (parent >= set.junctions && parent != NO_PARENT)
            return false;
        set.parent[junction] = parent;
        uint32_t above = parent == NO_PARENT ? TOP : parent;
        children.sibling[junction] = children.first[above];
        children.first[above] = junction;
    }
    return true;
}

// How many junctions hang below the top: those of a circle do not.
uint32_t walk(Set &set, const Children &children) {
    uint32_t met = 0;
    uint32_t depth = 0;
    uint32_t junction = children.first[TOP];
    while (junction != NONE) {
        set.depth[junction] = depth;
        set.place[junction] = met;
        set.preorder[met++] = junction;
        if (children.first[junction] != NONE) {
            junction = children.first[junction];
            depth++;
            continue;
        }
        // Up from each junction below which all are met.
        set.last_place[junction] = met - 1;
        while (children.sibling[junction] == NONE && depth > 0) {
            junction = set.parent[junction];
            set.last_place[junction] = met - 1;
            depth--;
        }
        junction = children.sibling[junction];
    }
    return met;
}

bool roads_fit(const Set &set) {
    for (uint32_t junction = 0; junction < set.junctions; junction++)
        for (uint32_t road = set.first_road[junction]; road < set.first_road[junction + 1]; road++) {
            uint32_t other = set.road[road].to;
            if (!set.is_ancestor(junction, other) && !set.is_ancestor(other, junction))
                return false;
        }
    return true;
}

} // namespace

uint32_t read_forest(Set &set) {
    Children children;
    if (!read_parents(set, children) || walk(set, children) != set.junctions)
        return 15;
    return roads_fit(set) ? 0 : 16;
}

} // namespace peer
