// Is every stored list right? It is exactly if each agrees with the lists one road further.
#include <algorithm>

#include "set.h"

namespace peer {

namespace {

// The list of a junction and itself.
const uint8_t ARRIVED[10] = {1};

// Which entries of a list have been met.
using Marks = uint8_t[MOST_ENTRIES + 1];

// More than the energy of any sum.
constexpr uint32_t NO_ENTRY = UINT32_MAX;

// Whether the list covers each sum of the road and an entry of the rest; entries that equal one are marked.
bool covers(List own, uint32_t count, Pair road, List rest, Marks &marks) {
    uint32_t rest_count = rest.count();
    if (rest_count == 0)
        return true;
    if (count == 0 || own.entry(0).energy > road.energy + rest.entry(0).energy)
        return false;
    // The last entry with no more energy than a sum is the quickest of them.
    uint32_t last = 0;
    Pair quickest = own.entry(0);
    auto energy_behind = [&] { return last + 1 < count ? own.entry(last + 1).energy : NO_ENTRY; };
    uint32_t behind = energy_behind();
    for (uint32_t place = 0; place < rest_count; place++) {
        Pair sum = road + rest.entry(place);
        while (behind <= sum.energy) {
            quickest = own.entry(++last);
            behind = energy_behind();
        }
        if (quickest.time > sum.time)
            return false;
        marks[last] |= quickest == sum;
    }
    return true;
}

// The junctions below each one stand behind it in preorder. With ancestors taken from the last to the first, each
// junction's lists come up in the order in which they stand.
class Sweep {
public:
    explicit Sweep(const Set &formed) : set(formed) {
        for (uint32_t junction = 0; junction < set.junctions; junction++)
            beside[junction] = List(set.labels + set.start[junction]);
    }

    bool run() {
        for (uint32_t place = set.junctions; place-- > 0;)
            if (!agree_below(set.preorder[place]))
                return false;
        return true;
    }

private:
    bool agree_below(uint32_t ancestor) {
        uint32_t from = set.place[ancestor] + 1u;
        uint32_t to = set.last_place[ancestor] + 1u;
        if (from == to)
            return true;
        List first(set.labels + set.start[ancestor]);
        List own = first;
        for (uint32_t above = set.parent[ancestor]; above != NO_PARENT; above = set.parent[above]) {
            beside[above] = own;
            own = own.next();
        }
        beside[ancestor] = List(ARRIVED);
        for (uint32_t place = from; place < to; place++)
            if (!agrees(set.preorder[place]))
                return false;
        for (uint32_t place = from; place < to; place++) {
            List &list = beside[set.preorder[place]];
            list = list.next();
        }
        beside[ancestor] = first;
        return true;
    }

    bool agrees(uint32_t junction) {
        List own = beside[junction];
        uint32_t count = own.count();
        std::fill_n(marks, count, 0);
        for (uint32_t road = set.first_road[junction]; road < set.first_road[junction + 1]; road++)
            if (!covers(own, count, set.road[road].pair, beside[set.road[road].to], marks))
                return false;
        return std::count(marks, marks + count, 1) == count;
    }

    const Set &set;
    // Of each junction above or below the ancestor whose turn it is: the list of the two.
    List beside[MOST_JUNCTIONS];
    Marks marks;
};

} // namespace

bool every_list_right(const Set &set) { return Sweep(set).run(); }

} // namespace peer
