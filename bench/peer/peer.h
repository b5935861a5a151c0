/* The peer's C interface. Numbers are those of the calls' refusals, 0 for none. */
#ifndef PEER_H
#define PEER_H

#include <stddef.h>
#include <stdint.h>

#ifdef __cplusplus
extern "C" {
#endif

/* An accepted set. It reads the bytes it was made of, so they must outlive it. */
typedef struct peer_set peer_set;

uint32_t peer_check(const uint8_t *net, size_t net_length, const uint8_t *labels, size_t labels_length);

/* All of the check but 18. */
uint32_t peer_form(const uint8_t *net, size_t net_length, const uint8_t *labels, size_t labels_length);

/* The check; if its number is 0, `set` is filled and must be given back to peer_release. */
uint32_t peer_accept(const uint8_t *net, size_t net_length, const uint8_t *labels, size_t labels_length,
                     peer_set **set);
void peer_release(peer_set *set);

/* For each of `count` triples s, t, limit a triple number, time, energy. */
void peer_batch(const peer_set *set, const uint32_t *queries, size_t count, uint32_t *answers);

/* The same, with hoplinks left out whose first and last entries say that nothing better is there. */
void peer_bounded_batch(const peer_set *set, const uint32_t *queries, size_t count, uint32_t *answers);

/* The first route of a pair that peer_batch found for s and t, into 1,024 places; the count of its junctions. */
size_t peer_route(const peer_set *set, uint32_t s, uint32_t t, uint32_t time, uint32_t energy, uint32_t *junctions);

/* The trade-off list of two junctions of the set; its count. Written only if it fits the room. */
size_t peer_list(const peer_set *set, uint32_t s, uint32_t t, uint32_t *times, uint32_t *energies, size_t room);

#ifdef __cplusplus
}
#endif

#endif
