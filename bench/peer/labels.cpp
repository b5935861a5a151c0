// The label file: its header, and the form of its lists in the order of their bytes.
#include "set.h"

namespace peer {

namespace {

constexpr size_t MOST_BYTES = 4194304;
constexpr uint32_t MOST_TAKEN = 67042305;

bool in_range(uint32_t figure) { return figure >= 1 && figure <= MOST_TAKEN; }

// A list that is there as a whole. Order bounds all entries by the first and the last.
bool well_formed(List list, uint32_t count) {
    if (count == 0)
        return true;
    Pair first = list.entry(0);
    Pair last = list.entry(count - 1);
    bool fits = first.time <= MOST_TAKEN && first.energy >= 1 && last.time >= 1 && last.energy <= MOST_TAKEN;
    for (uint32_t place = 1; place < count; place++) {
        Pair before = list.entry(place - 1);
        Pair here = list.entry(place);
        fits &= (here.time < before.time) & (here.energy > before.energy);
    }
    return fits;
}

// A list with fewer bytes than its count asks for: the first number that breaks a rule, or the end.
uint32_t cut_number(const uint8_t *byte, const uint8_t *end) {
    Pair before = {MOST_TAKEN + 1, 0};
    for (;;) {
        if (end - byte < 4)
            return 11;
        uint32_t time = u32_at(byte);
        if (!in_range(time) || time >= before.time)
            return 17;
        if (end - byte < 8)
            return 11;
        uint32_t energy = u32_at(byte + 4);
        if (!in_range(energy) || energy <= before.energy)
            return 17;
        before = {time, energy};
        byte += 8;
    }
}

} // namespace

uint32_t read_label_header(Set &set) {
    const uint8_t *labels = set.labels;
    if (set.labels_length < HEADER || set.labels_length > MOST_BYTES)
        return 11;
    if (std::memcmp(labels, "TLB", 3) != 0 || labels[5] != 0)
        return 12;
    if (u16_at(labels + 3) != 1)
        return 13;
    if (u16_at(labels + 6) != set.junctions || u32_at(labels + 12) != u32_at(set.net + 12))
        return 14;
    return set.labels_length < HEADER + 2 * set.junctions ? 11 : 0;
}

uint32_t read_lists(Set &set) {
    const uint8_t *byte = set.labels + HEADER + 2 * set.junctions;
    const uint8_t *end = set.labels + set.labels_length;
    uint32_t entries = 0;
    for (uint32_t junction = 0; junction < set.junctions; junction++) {
        set.start[junction] = byte - set.labels;
        for (uint32_t level = set.depth[junction]; level > 0; level--) {
            if (end - byte < 2)
                return 11;
            List list(byte);
            uint32_t count = list.count();
            if (count > MOST_ENTRIES)
                return 17;
            if (end - byte < 2 + 8 * static_cast<ptrdiff_t>(count))
                return cut_number(byte + 2, end);
            if (!well_formed(list, count))
                return 17;
            byte += 2 + 8 * count;
            entries += count;
        }
    }
    if (byte != end)
        return 11;
    return entries == u32_at(set.labels + 8) ? 0 : 17;
}

} // namespace peer
