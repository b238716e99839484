/* Numbers of groups on their way. The core numbers the groups of each life from 0, and hubs and nodes tell groups apart by node and number. So that two
 * lives of a node share no number, each has a first one by its epoch: it is added to the number of the node's own groups in what the node says, and
 * taken off again in what it is asked. */
#include "within.h"

enum { TOLD = 2, ASK = 3, REPORTED = 4, STANDING = 5, GROUP = 20, STANDING_GROUP = 36, GROUP_BYTES = 6 }; /* docs/FORMATS.md, "Messages of a service" */

uint32_t hindlib_first_group(uint64_t epoch) {
    uint64_t x = epoch;
    x ^= x >> 33;
    x *= 0xff51afd7ed558ccdu;
    x ^= x >> 33;
    x *= 0xc4ceb9fe1a85ec53u;
    return (uint32_t)(x >> 32);
}

/* Where the group stands that a message speaks of, or 0. */
static size_t place_of_group(const uint8_t *bytes, size_t len) {
    if (len < 2) return 0;
    size_t place = bytes[1] == STANDING ? STANDING_GROUP : bytes[1] == TOLD || bytes[1] == ASK || bytes[1] == REPORTED ? GROUP : 0;
    return place + GROUP_BYTES <= len ? place : 0;
}

void hindlib_number_group(uint8_t *bytes, size_t len, uint16_t node, uint32_t add) {
    size_t place = place_of_group(bytes, len);
    uint8_t *at = bytes + place;
    if (!place || (at[0] << 8 | at[1]) != node) return;
    uint32_t number = ((uint32_t)at[2] << 24 | (uint32_t)at[3] << 16 | (uint32_t)at[4] << 8 | at[5]) + add;
    for (int i = 0; i < 4; i++) at[2 + i] = (uint8_t)(number >> (24 - 8 * i));
}
