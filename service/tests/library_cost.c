/* So many points of 32 bytes through the library, for callgrind, which counts what is done inside of them.
 *
 *     library_cost COUNT [FILE]     with a file the node's buffers lie there */
#include "hindsight.h"
#include <stdlib.h>
#include <string.h>

int main(int argc, char **argv) {
    static const char text[] = "triggerid 1\nnodes 4\nbuffers 1024\nsize 32768\nclients 1\nbacklog 64\nthreshold 512\n";
    static const uint8_t payload[32];
    const hind_trace_id id = {{1}};
    hind_node_options o = HIND_NODE_OPTIONS_INIT;
    hind_node *node;
    hind_client *c;
    if (argc < 2) return 2;
    if (argc > 2) o.pool_file = argv[2];
    o.settings = text;
    o.settings_len = sizeof text - 1;
    if (hind_node_open(&o, &node) || hind_client_get(node, &c) || hind_begin(c, &id)) return 1;
    for (int i = 0; i < atoi(argv[1]); i++)
        if (hind_point_at(c, 5, payload, sizeof payload)) return 1;
    return hind_end(c) || hind_node_close(node);
}
