// The best answer within a limit.
#include "hoplinks.h"

namespace peer {

namespace {

constexpr Pair NOTHING_YET = {UINT32_MAX, UINT32_MAX};

// The last entry within the limit is the quickest.
Answer stored_answer(List list, uint32_t limit) {
    if (list.count() == 0)
        return {22, {0, 0}};
    uint32_t within = list.within(limit);
    if (within == 0)
        return {23, {0, 0}};
    return {0, list.entry(within - 1)};
}

// Up the near list and down the far one: the last entry that fits beside another is the quickest.
Pair best_sum(List near, List far, uint32_t limit, Pair best) {
    uint32_t count = near.count();
    uint32_t fitting = far.count();
    for (uint32_t place = 0; place < count; place++) {
        Pair entry = near.entry(place);
        while (fitting > 0 && entry.energy + far.entry(fitting - 1).energy > limit)
            fitting--;
        if (fitting == 0)
            break;
        Pair sum = entry + far.entry(fitting - 1);
        if (sum < best)
            best = sum;
    }
    return best;
}

template <bool BOUNDS_FIRST> Answer best_answer(const Accepted &set, uint32_t s, uint32_t t, uint32_t limit) {
    if (s >= set.junctions || t >= set.junctions)
        return {21, {0, 0}};
    if (s == t)
        return {0, {0, 0}};
    if (set.is_ancestor(s, t))
        return stored_answer(set.list(t, s), limit);
    if (set.is_ancestor(t, s))
        return stored_answer(set.list(s, t), limit);
    bool connected = false;
    Pair best = NOTHING_YET;
    each_hoplink(set, s, t, [&](List near, List far) {
        connected |= near.count() > 0 && far.count() > 0;
        if (!BOUNDS_FIRST || may_fit(near, far, {best.time, limit}))
            best = best_sum(near, far, limit, best);
        return false;
    });
    if (!connected)
        return {22, {0, 0}};
    if (best == NOTHING_YET)
        return {23, {0, 0}};
    return {0, best};
}

} // namespace

Answer answer(const Accepted &set, uint32_t s, uint32_t t, uint32_t limit) {
    return best_answer<false>(set, s, t, limit);
}

Answer bounded_answer(const Accepted &set, uint32_t s, uint32_t t, uint32_t limit) {
    return best_answer<true>(set, s, t, limit);
}

} // namespace peer
