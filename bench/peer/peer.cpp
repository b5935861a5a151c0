// The C interface.
#include "peer.h"

#include <memory>

#include "accepted.h"

using namespace peer;

struct peer_set : Accepted {};

namespace {

uint32_t form(Set &set, const uint8_t *net, size_t net_length, const uint8_t *labels, size_t labels_length) {
    set.net = net;
    set.net_length = net_length;
    set.labels = labels;
    set.labels_length = labels_length;
    if (uint32_t number = read_network(set))
        return number;
    if (uint32_t number = read_label_header(set))
        return number;
    if (uint32_t number = read_forest(set))
        return number;
    return read_lists(set);
}

uint32_t check(Set &set, const uint8_t *net, size_t net_length, const uint8_t *labels, size_t labels_length) {
    if (uint32_t number = form(set, net, net_length, labels, labels_length))
        return number;
    return every_list_right(set) ? 0 : 18;
}

void write(Answer answer, uint32_t *places) {
    places[0] = answer.number;
    places[1] = answer.pair.time;
    places[2] = answer.pair.energy;
}

} // namespace

uint32_t peer_check(const uint8_t *net, size_t net_length, const uint8_t *labels, size_t labels_length) {
    Set set;
    return check(set, net, net_length, labels, labels_length);
}

uint32_t peer_form(const uint8_t *net, size_t net_length, const uint8_t *labels, size_t labels_length) {
    Set set;
    return form(set, net, net_length, labels, labels_length);
}

uint32_t peer_accept(const uint8_t *net, size_t net_length, const uint8_t *labels, size_t labels_length,
                     peer_set **set) {
    auto made = std::make_unique<peer_set>();
    uint32_t number = check(*made, net, net_length, labels, labels_length);
    if (number != 0)
        return number;
    find_reached(*made);
    *set = made.release();
    return 0;
}

void peer_release(peer_set *set) { delete set; }

void peer_batch(const peer_set *set, const uint32_t *queries, size_t count, uint32_t *answers) {
    for (size_t triple = 0; triple < count; triple++, queries += 3, answers += 3)
        write(answer(*set, queries[0], queries[1], queries[2]), answers);
}

void peer_bounded_batch(const peer_set *set, const uint32_t *queries, size_t count, uint32_t *answers) {
    for (size_t triple = 0; triple < count; triple++, queries += 3, answers += 3)
        write(bounded_answer(*set, queries[0], queries[1], queries[2]), answers);
}

size_t peer_route(const peer_set *set, uint32_t s, uint32_t t, uint32_t time, uint32_t energy, uint32_t *junctions) {
    return route(*set, s, t, {time, energy}, junctions);
}

size_t peer_list(const peer_set *set, uint32_t s, uint32_t t, uint32_t *times, uint32_t *energies, size_t room) {
    return trade_offs(*set, s, t, times, energies, room);
}
