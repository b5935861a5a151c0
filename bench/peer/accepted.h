// A set that the check has accepted, and what is asked of it.
#pragma once

#include <bitset>

#include "set.h"

namespace peer {

struct Accepted : Set {
    // Of each junction the depths of its proper ancestors that have a road to it or below it.
    std::bitset<MOST_JUNCTIONS> reached[MOST_JUNCTIONS];
};

struct Answer {
    uint32_t number;
    Pair pair;
};

// After the check: fills the table of what is reached.
void find_reached(Accepted &set);

// The best pair within the limit, or 21, 22, 23.
Answer answer(const Accepted &set, uint32_t s, uint32_t t, uint32_t limit);

// The same, with hoplinks left out whose first and last entries say that nothing better is there.
Answer bounded_answer(const Accepted &set, uint32_t s, uint32_t t, uint32_t limit);

// The junctions of the first route of an unbeaten pair; their count.
size_t route(const Accepted &set, uint32_t s, uint32_t t, Pair pair, uint32_t *junctions);

// The whole trade-off list, if it fits the room; its count.
size_t trade_offs(const Accepted &set, uint32_t s, uint32_t t, uint32_t *times, uint32_t *energies, size_t room);

} // namespace peer
