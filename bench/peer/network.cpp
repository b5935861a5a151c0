// The network file, and its roads by junction.
#include <algorithm>

#include "set.h"

namespace peer {

namespace {

constexpr size_t RECORD = 8;

struct Record {
    uint32_t lower;
    uint32_t higher;
    Pair pair;

    explicit Record(const uint8_t *byte)
        : lower(u16_at(byte)), higher(u16_at(byte + 2)), pair{u16_at(byte + 4), u16_at(byte + 6)} {}
};

bool comes_before(const Record &one, const Record &other) {
    return one.lower != other.lower ? one.lower < other.lower : one.higher < other.higher;
}

uint32_t read_header(Set &set) {
    const uint8_t *net = set.net;
    if (set.net_length < HEADER)
        return 1;
    if (std::memcmp(net, "TRN", 3) != 0 || net[5] != 0)
        return 2;
    if (u16_at(net + 3) != 1)
        return 3;
    set.junctions = u16_at(net + 6);
    set.roads = u32_at(net + 8);
    if (set.junctions < 1 || set.junctions > MOST_JUNCTIONS || set.roads > MOST_ROADS)
        return 4;
    return set.net_length == HEADER + RECORD * set.roads ? 0 : 1;
}

uint32_t test_records(const Set &set) {
    const uint8_t *byte = set.net + HEADER;
    for (uint32_t road = 0; road < set.roads; road++, byte += RECORD) {
        Record record(byte);
        if (record.lower >= record.higher || record.higher >= set.junctions)
            return 5;
        if (road > 0 && !comes_before(Record(byte - RECORD), record))
            return 5;
        if (record.pair.time == 0 || record.pair.energy == 0)
            return 6;
    }
    return 0;
}

// Counts the roads of each junction, then deals them out in file order.
void group_roads(Set &set) {
    const uint8_t *end = set.net + set.net_length;
    std::fill_n(set.first_road, set.junctions + 1, 0);
    for (const uint8_t *byte = set.net + HEADER; byte < end; byte += RECORD) {
        Record record(byte);
        set.first_road[record.lower + 1]++;
        set.first_road[record.higher + 1]++;
    }
    for (uint32_t junction = 0; junction < set.junctions; junction++)
        set.first_road[junction + 1] += set.first_road[junction];
    uint32_t next[MOST_JUNCTIONS];
    std::copy_n(set.first_road, set.junctions, next);
    for (const uint8_t *byte = set.net + HEADER; byte < end; byte += RECORD) {
        Record record(byte);
        set.road[next[record.lower]++] = {record.higher, record.pair};
        set.road[next[record.higher]++] = {record.lower, record.pair};
    }
}

} // namespace

uint32_t read_network(Set &set) {
    if (uint32_t number = read_header(set))
        return number;
    if (uint32_t number = test_records(set))
        return number;
    group_roads(set);
    return 0;
}

} // namespace peer
