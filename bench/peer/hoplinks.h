// The hoplinks of two junctions: where paths between two branches of the forest must pass.
#pragma once

#include "accepted.h"

namespace peer {

// The deepest common ancestor, or NO_PARENT.
inline uint32_t deepest_common(const Set &set, uint32_t s, uint32_t t) {
    uint32_t above = s;
    while (above != NO_PARENT && !set.is_ancestor(above, t))
        above = set.parent[above];
    return above;
}

// Gives both junctions' lists at each hoplink to `visit`, until it has seen enough and says so.
template <class Visit> void each_hoplink(const Accepted &set, uint32_t s, uint32_t t, Visit visit) {
    uint32_t deepest = deepest_common(set, s, t);
    if (deepest == NO_PARENT)
        return;
    List near = set.list(s, deepest);
    List far = set.list(t, deepest);
    if (visit(near, far))
        return;
    for (uint32_t level = set.depth[deepest]; level-- > 0;) {
        near = near.next();
        far = far.next();
        if (set.reached[deepest][level] && visit(near, far))
            return;
    }
}

} // namespace peer
