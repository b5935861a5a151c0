// The first route of a pair: at each junction the first road after which the rest can still be spent.
#include "hoplinks.h"

namespace peer {

namespace {

bool is_within(Pair one, Pair other) { return one.time <= other.time && one.energy <= other.energy; }

// Whether some sum of two entries is within the pair.
bool sum_within(List near, List far, Pair pair) {
    if (!may_fit(near, far, pair))
        return false;
    uint32_t count = near.count();
    uint32_t fitting = far.count();
    uint32_t place = 0;
    while (place < count && fitting > 0) {
        Pair sum = near.entry(place) + far.entry(fitting - 1);
        if (is_within(sum, pair))
            return true;
        if (sum.energy > pair.energy)
            fitting--;
        else
            place++;
    }
    return false;
}

// Whether some entry is: of those with no more energy the last is the quickest.
bool entry_within(List list, Pair pair) {
    uint32_t within = list.within(pair.energy);
    return within > 0 && list.entry(within - 1).time <= pair.time;
}

// Whether a path from s to t takes no more than the pair.
bool reaches(const Accepted &set, uint32_t s, uint32_t t, Pair pair) {
    if (s == t)
        return true;
    if (set.is_ancestor(s, t))
        return entry_within(set.list(t, s), pair);
    if (set.is_ancestor(t, s))
        return entry_within(set.list(s, t), pair);
    bool found = false;
    each_hoplink(set, s, t, [&](List near, List far) { return found = sum_within(near, far, pair); });
    return found;
}

} // namespace

size_t route(const Accepted &set, uint32_t s, uint32_t t, Pair pair, uint32_t *junctions) {
    size_t count = 0;
    uint32_t here = s;
    while (here != t) {
        junctions[count++] = here;
        for (uint32_t at = set.first_road[here]; at < set.first_road[here + 1]; at++) {
            Road road = set.road[at];
            if (!is_within(road.pair, pair))
                continue;
            Pair rest = {pair.time - road.pair.time, pair.energy - road.pair.energy};
            if (reaches(set, road.to, t, rest)) {
                here = road.to;
                pair = rest;
                break;
            }
        }
    }
    junctions[count++] = t;
    return count;
}

} // namespace peer
