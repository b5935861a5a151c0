// Which ancestors each junction reaches by a road, its own or one from below it.
#include "accepted.h"

namespace peer {

void find_reached(Accepted &set) {
    for (uint32_t junction = 0; junction < set.junctions; junction++)
        for (uint32_t road = set.first_road[junction]; road < set.first_road[junction + 1]; road++) {
            uint32_t above = set.road[road].to;
            uint32_t level = set.depth[above];
            // Up to the other end, or to where another road has been before.
            for (uint32_t at = junction; set.depth[at] > level && !set.reached[at][level]; at = set.parent[at])
                set.reached[at][level] = true;
        }
}

} // namespace peer
