/* The shared library is loaded by name and unloaded while a thread has a client; the thread ends afterwards.
 *
 *     library_load FILE */
#include "expect.h"
#include "hindsight.h"
#include <dlfcn.h>
#include <pthread.h>
#include <string.h>

static pthread_barrier_t barrier;
static void *library;
static hind_node *node;

/* A function of the library: C has no conversion of what dlsym answers. */
#define FUNCTION(name) __extension__((__typeof__(name) *)symbol(#name))

static void *symbol(const char *name) {
    void *at = dlsym(library, name);
    HOLDS(at != NULL);
    return at;
}

static void *has_a_client(void *arg) {
    const hind_trace_id id = {{1}};
    hind_client *c;
    (void)arg;
    EXPECT(FUNCTION(hind_client_get)(node, &c), HIND_OK);
    EXPECT(FUNCTION(hind_begin)(c, &id), HIND_OK);
    EXPECT(FUNCTION(hind_point)(c, "x", 1), HIND_OK);
    pthread_barrier_wait(&barrier);
    pthread_barrier_wait(&barrier);
    return NULL; /* its trace is ended by the library */
}

int main(int argc, char **argv) {
    static const char text[] = "nodes 1\nbuffers 64\nclients 2\nsize 256\nthreshold 8\npins 8\n";
    hind_node_options o = HIND_NODE_OPTIONS_INIT;
    pthread_t thread;
    if (argc != 2) return 2;
    o.settings = text;
    o.settings_len = sizeof text - 1;
    for (int round = 0; round < 3; round++) {
        library = dlopen(argv[1], RTLD_NOW | RTLD_LOCAL);
        if (!library) {
            fprintf(stderr, "%s\n", dlerror());
            return 1;
        }
        EXPECT(FUNCTION(hind_version)(), HIND_VERSION_NUMBER);
        EXPECT(FUNCTION(hind_node_open)(&o, &node), HIND_OK);
        HOLDS(!pthread_barrier_init(&barrier, NULL, 2));
        HOLDS(!pthread_create(&thread, NULL, has_a_client, NULL));
        pthread_barrier_wait(&barrier);
        EXPECT(FUNCTION(hind_node_close)(node), HIND_OK);
        EXPECT(dlclose(library), 0);
        pthread_barrier_wait(&barrier);
        HOLDS(!pthread_join(thread, NULL));
        pthread_barrier_destroy(&barrier);
    }
    return failed != 0;
}
