// Pairs of time and energy, and stored lists of them, read where they stand.
#pragma once

#include "bytes.h"

namespace peer {

// In the order of the files.
struct Pair {
    uint32_t time;
    uint32_t energy;
};

inline Pair operator+(Pair one, Pair other) {
    return {one.time + other.time, one.energy + other.energy};
}

inline bool operator==(Pair one, Pair other) {
    return one.time == other.time && one.energy == other.energy;
}

// The order of answers: less time, then less energy.
inline bool operator<(Pair one, Pair other) {
    return one.time != other.time ? one.time < other.time : one.energy < other.energy;
}

// A 16-bit count and so many pairs, energies rising and times falling.
class List {
public:
    List() = default;
    explicit List(const uint8_t *at) : byte(at) {}

    uint32_t count() const { return u16_at(byte); }

    Pair entry(uint32_t place) const {
        Pair pair;
        std::memcpy(&pair, byte + 2 + 8 * place, sizeof pair);
        return pair;
    }

    // How many entries are within a limit of energy, by halving: they come first.
    uint32_t within(uint32_t limit) const {
        uint32_t from = 0;
        uint32_t to = count();
        while (from < to) {
            uint32_t middle = (from + to) / 2;
            if (entry(middle).energy <= limit)
                from = middle + 1;
            else
                to = middle;
        }
        return from;
    }

    // The list that stands behind this one.
    List next() const { return List(byte + 2 + 8 * count()); }

private:
    const uint8_t *byte;
};

// Whether a sum of two entries can be within a pair: the first ones have the least energy, the last ones the least
// time.
inline bool may_fit(List near, List far, Pair pair) {
    uint32_t near_count = near.count();
    uint32_t far_count = far.count();
    return near_count > 0 && far_count > 0 && near.entry(0).energy + far.entry(0).energy <= pair.energy &&
           near.entry(near_count - 1).time + far.entry(far_count - 1).time <= pair.time;
}

} // namespace peer
