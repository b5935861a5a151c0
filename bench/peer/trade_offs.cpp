// The whole trade-off list of two junctions: a stored one, or the unbeaten sums at their hoplinks.
#include <vector>

#include "hoplinks.h"

namespace peer {

namespace {

using Pairs = std::vector<Pair>;

// Keeps a pair that comes after all of `list` by energy, or by time if energies are equal, unless it is beaten.
void keep(Pairs &list, Pair pair) {
    if (list.empty() || pair.time < list.back().time)
        list.push_back(pair);
}

bool comes_first(Pair one, Pair other) {
    return one.energy != other.energy ? one.energy < other.energy : one.time < other.time;
}

// The unbeaten ones among the list and the sums of a pair and each entry of another.
void merge(const Pairs &list, Pair pair, List entries, uint32_t count, Pairs &merged) {
    merged.clear();
    size_t at = 0;
    for (uint32_t place = 0; place < count; place++) {
        Pair sum = pair + entries.entry(place);
        while (at < list.size() && comes_first(list[at], sum))
            keep(merged, list[at++]);
        keep(merged, sum);
    }
    while (at < list.size())
        keep(merged, list[at++]);
}

Pairs unbeaten_sums(const Accepted &set, uint32_t s, uint32_t t) {
    Pairs list;
    Pairs merged;
    each_hoplink(set, s, t, [&](List near, List far) {
        uint32_t count = far.count();
        for (uint32_t place = 0; place < near.count() && count > 0; place++) {
            merge(list, near.entry(place), far, count, merged);
            list.swap(merged);
        }
        return false;
    });
    return list;
}

Pairs stored(List list) {
    Pairs pairs;
    for (uint32_t place = 0; place < list.count(); place++)
        pairs.push_back(list.entry(place));
    return pairs;
}

Pairs trade_off_list(const Accepted &set, uint32_t s, uint32_t t) {
    if (s == t)
        return {{0, 0}};
    if (set.is_ancestor(s, t))
        return stored(set.list(t, s));
    if (set.is_ancestor(t, s))
        return stored(set.list(s, t));
    return unbeaten_sums(set, s, t);
}

} // namespace

size_t trade_offs(const Accepted &set, uint32_t s, uint32_t t, uint32_t *times, uint32_t *energies, size_t room) {
    Pairs list = trade_off_list(set, s, t);
    if (list.size() > room)
        return list.size();
    for (size_t place = 0; place < list.size(); place++) {
        times[place] = list[place].time;
        energies[place] = list[place].energy;
    }
    return list.size();
}

} // namespace peer
