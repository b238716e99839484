/* The pool file of a node: the buffers of its core lie there, and outlive the process. It is made beside its path and moved there, so what lies at
 * the path is whole. A lock tells whether a process has it. */
#define _GNU_SOURCE
#include "pool.h"
#include <dirent.h>
#include <errno.h>
#include <fcntl.h>
#include <limits.h>
#include <stdio.h>
#include <stdlib.h>
#include <string.h>
#include <sys/file.h>
#include <sys/mman.h>
#include <sys/stat.h>
#include <time.h>
#include <unistd.h>

enum { VERSION = 1, DIGEST = 208, LEAST_BLOCK = 72, MOST_BLOCK = 32776, PAGE = 4096, APART = 64, UNCOUNTED = 8, MOST_KEPT = 64, KEPT = 2, SUFFIX = 17 /* .0123456789abcdef */ };

static const uint8_t magic[8] = {'H', 'I', 'N', 'D', 'P', 'O', 'O', 'L'};

struct hindlib_pool {
    pool_file file;
    hindheap_places places;
    char path[PATH_MAX], fresh[PATH_MAX];
    int before;       /* what lay at the path, or -1 */
    int is_settled;
    uint32_t kept;    /* files of earlier lives */
    size_t told;      /* messages that were noted */
    uint64_t unkept[POOL_NOTES]; /* the number of each note's message and one more, while the broker may not have it; else 0 */
};

/* ---- files that are this process's, which a child closes */

static int own[HINDHEAP_FOREIGN + MOST_KEPT]; /* each and one more; 0: none */
static pthread_mutex_t own_lock = PTHREAD_MUTEX_INITIALIZER;
static pthread_once_t is_told = PTHREAD_ONCE_INIT;

static void note_own(int from, int to) {
    pthread_mutex_lock(&own_lock);
    for (size_t i = 0; i < sizeof own / sizeof *own; i++) {
        if (own[i] != from + 1) continue;
        own[i] = to + 1;
        break;
    }
    pthread_mutex_unlock(&own_lock);
}

/* A child has none of the files: the lock goes with the process that took it. */
static void before_fork(void) { pthread_mutex_lock(&own_lock); }
static void in_parent(void) { pthread_mutex_unlock(&own_lock); }
static void in_child(void) {
    for (size_t i = 0; i < sizeof own / sizeof *own; i++) {
        if (own[i]) close(own[i] - 1);
        own[i] = 0;
    }
    pthread_mutex_unlock(&own_lock);
}
static void tell(void) { (void)pthread_atfork(before_fork, in_parent, in_child); }

static void drop(int fd) {
    if (fd < 0) return;
    note_own(fd, -1);
    close(fd);
}

/* A file that somebody else made is nothing that this service left. */
static int is_ours(int fd) {
    struct stat found;
    if (fstat(fd, &found)) return 0;
    if (found.st_uid != geteuid()) errno = EPERM;
    return found.st_uid == geteuid();
}

/* Opens and locks: the descriptor, or -1. */
static int take(const char *path, int flags) {
    int fd = open(path, flags | O_RDWR | O_CLOEXEC | O_NOFOLLOW, 0600);
    if (fd >= 0) note_own(-1, fd);
    if (fd < 0 || (is_ours(fd) && !flock(fd, LOCK_EX | LOCK_NB))) return fd;
    int why = errno;
    drop(fd);
    errno = why;
    return -1;
}

static hind_code of_errno(void) { return errno == EWOULDBLOCK ? HIND_TAKEN : errno == ENOMEM ? HIND_NOMEM : HIND_SYSTEM; }

/* Whether the path still leads to what was opened there. */
static int is_at(const char *path, int fd) {
    struct stat there, here;
    return !stat(path, &there) && !fstat(fd, &here) && there.st_dev == here.st_dev && there.st_ino == here.st_ino;
}

/* ---- the front */

uint64_t pool_number(const uint8_t *at, size_t bytes) {
    uint64_t n = 0;
    for (size_t i = 0; i < bytes; i++) n = n << 8 | at[i];
    return n;
}

void pool_put(uint8_t *at, size_t bytes, uint64_t number) {
    for (size_t i = bytes; i--; number >>= 8) at[i] = (uint8_t)number;
}

static void digest_of(const uint8_t *front, uint8_t digest[HINDLIB_DIGEST]) {
    hindlib_sha s;
    hindlib_sha_begin(&s);
    hindlib_sha_add(&s, front, DIGEST);
    hindlib_sha_end(&s, digest);
}

/* docs/FORMATS.md, "The pool file" */
static void write_front(uint8_t *at, const pool_front *f) {
    memcpy(at, magic, sizeof magic);
    pool_put(at + 8, 4, VERSION);
    pool_put(at + 12, 4, f->block);
    pool_put(at + 16, 4, f->stride);
    pool_put(at + 20, 4, f->count);
    pool_put(at + 24, 8, f->first);
    pool_put(at + 32, 8, f->epoch);
    pool_put(at + 40, 2, f->node);
    pool_put(at + 42, 2, strlen(f->name));
    memcpy(at + 44, f->name, strlen(f->name));
    pool_put(at + 108, 4, f->process);
    pool_put(at + 112, 8, f->opened);
    pool_put(at + 120, 8, f->steady);
    memcpy(at + 128, f->boot, 16);
    memcpy(at + 144, f->digest, 32);
    pool_put(at + 176, 8, f->settings);
    pool_put(at + 184, 8, f->settings_len);
    pool_put(at + 192, 8, f->notes);
    pool_put(at + 200, 4, f->note_count);
    pool_put(at + 204, 4, f->note_bytes);
    digest_of(at, at + DIGEST);
}

static void read_front(const uint8_t *at, pool_front *f) {
    memset(f, 0, sizeof *f);
    f->block = (uint32_t)pool_number(at + 12, 4);
    f->stride = (uint32_t)pool_number(at + 16, 4);
    f->count = (uint32_t)pool_number(at + 20, 4);
    f->first = pool_number(at + 24, 8);
    f->epoch = pool_number(at + 32, 8);
    f->node = (uint16_t)pool_number(at + 40, 2);
    memcpy(f->name, at + 44, HINDLIB_NAME);
    f->process = (uint32_t)pool_number(at + 108, 4);
    f->opened = pool_number(at + 112, 8);
    f->steady = pool_number(at + 120, 8);
    memcpy(f->boot, at + 128, 16);
    memcpy(f->digest, at + 144, 32);
    f->settings = pool_number(at + 176, 8);
    f->settings_len = pool_number(at + 184, 8);
    f->notes = pool_number(at + 192, 8);
    f->note_count = (uint32_t)pool_number(at + 200, 4);
    f->note_bytes = (uint32_t)pool_number(at + 204, 4);
}

/* Whether so many bytes from there on lie in the file. */
static int lies(uint64_t len, uint64_t from, uint64_t bytes) { return from <= len && bytes <= len - from; }

static int is_front(const uint8_t *at, size_t len) {
    uint8_t digest[HINDLIB_DIGEST];
    pool_front f;
    if (len < POOL_FRONT || memcmp(at, magic, sizeof magic) || pool_number(at + 8, 4) != VERSION) return 0;
    digest_of(at, digest);
    read_front(at, &f);
    return !memcmp(digest, at + DIGEST, sizeof digest) && f.block >= LEAST_BLOCK && f.block <= MOST_BLOCK && f.block <= f.stride && f.note_bytes == POOL_NOTE && lies(len, f.settings, f.settings_len)
           && lies(len, f.notes, (uint64_t)f.note_count * f.note_bytes) && lies(len, f.first, (uint64_t)f.count * f.stride);
}

const uint8_t *pool_buffer(const pool_file *f, size_t at) { return f->bytes + f->front.first + at * f->front.stride; }
uint8_t *pool_note(const pool_file *f, size_t at) { return f->bytes + f->front.notes + at * f->front.note_bytes; }

/* ---- files that are there */

/* A child after a fork has none of it: the memory would keep the file's lock. */
static void *mapped(size_t len, int fd) {
    void *at = mmap(NULL, len, PROT_READ | PROT_WRITE, MAP_SHARED, fd, 0);
    if (at != MAP_FAILED) (void)madvise(at, len, MADV_DONTFORK);
    return at;
}

static hind_code map(pool_file *f, int writes) {
    struct stat found;
    if (fstat(f->fd, &found)) return HIND_SYSTEM;
    if (!S_ISREG(found.st_mode) || found.st_size < POOL_FRONT) return HIND_INVALID;
    void *at = writes ? mapped((size_t)found.st_size, f->fd) : mmap(NULL, (size_t)found.st_size, PROT_READ, MAP_PRIVATE, f->fd, 0);
    if (at == MAP_FAILED) return of_errno();
    f->bytes = at;
    f->len = (size_t)found.st_size;
    if (!is_front(f->bytes, f->len)) return HIND_INVALID;
    read_front(f->bytes, &f->front);
    return HIND_OK;
}

/* A process that lives has the file's lock. Who only reads keeps nobody from it. */
static int open_to_read(const char *path) {
    int fd = open(path, O_RDONLY | O_CLOEXEC), why;
    if (fd < 0 || (!flock(fd, LOCK_SH | LOCK_NB) && !flock(fd, LOCK_UN))) return fd;
    why = errno;
    close(fd);
    errno = why;
    return -1;
}

hind_code pool_open(const char *path, int for_node, pool_file *f) {
    *f = (pool_file){.fd = for_node ? take(path, 0) : open_to_read(path)};
    if (f->fd < 0) return errno == ENOENT ? HIND_NOTHING : of_errno();
    hind_code code = map(f, for_node);
    if (code) pool_close(f);
    return code;
}

void pool_close(pool_file *f) {
    if (f->bytes) munmap(f->bytes, f->len);
    drop(f->fd);
    *f = (pool_file){.fd = -1};
}

static int shows_a_page(const pool_file *f) {
    for (size_t i = 0; i < f->front.count; i++)
        if (pool_number(pool_buffer(f, i) + 30, 2)) return 1;
    return 0;
}

/* ---- making */

static uint64_t rounded(uint64_t n, uint64_t to) { return (n + to - 1) / to * to; }

/* Which boot of the machine this is, or zeros. */
static void read_boot(uint8_t boot[16]) {
    char text[64];
    int fd = open("/proc/sys/kernel/random/boot_id", O_RDONLY | O_CLOEXEC), digits = 0;
    ssize_t len = fd < 0 ? 0 : read(fd, text, sizeof text);
    if (fd >= 0) close(fd);
    memset(boot, 0, 16);
    for (ssize_t i = 0; i < len && digits < 32; i++) {
        int digit = text[i] >= '0' && text[i] <= '9' ? text[i] - '0' : text[i] >= 'a' && text[i] <= 'f' ? text[i] - 'a' + 10 : -1;
        if (digit < 0) continue;
        boot[digits / 2] = (uint8_t)(boot[digits / 2] << 4 | digit);
        digits++;
    }
}

/* Where all lies in the file. Numbers that the core refuses make a file that nobody keeps. */
static void plan(pool_front *f, const hind_node_options *o) {
    uint32_t size = hindlib_setting(o->settings, o->settings_len, "size", 4088), count = hindlib_setting(o->settings, o->settings_len, "buffers", 16384);
    f->block = (size > 32768 ? 64 : size) + UNCOUNTED;
    f->stride = (uint32_t)rounded(f->block, APART);
    f->count = count > 65536 ? 1 : count;
    f->settings = POOL_FRONT;
    f->settings_len = o->settings_len;
    f->notes = rounded(POOL_FRONT + o->settings_len, APART);
    f->note_count = POOL_NOTES;
    f->note_bytes = POOL_NOTE;
    f->first = rounded(f->notes + POOL_NOTES * POOL_NOTE, PAGE);
}

static void describe(pool_front *f, const hind_node_options *o, const uint8_t digest[HINDLIB_DIGEST]) {
    plan(f, o);
    f->epoch = o->epoch;
    f->node = o->node;
    snprintf(f->name, sizeof f->name, "%s", o->name);
    f->process = (uint32_t)getpid();
    f->opened = hindlib_nanoseconds();
    f->steady = hindlib_microseconds();
    read_boot(f->boot);
    memcpy(f->digest, digest, HINDLIB_DIGEST);
}

/* All room is taken now, so that no write finds the disk full. */
static hind_code lay_out(hindlib_pool *p, const hind_node_options *o) {
    pool_file *f = &p->file;
    f->len = rounded(f->front.first + (uint64_t)f->front.count * f->front.stride, PAGE);
    if (ftruncate(f->fd, 0) || (errno = posix_fallocate(f->fd, 0, (off_t)f->len))) return HIND_SYSTEM;
    void *at = mapped(f->len, f->fd);
    if (at == MAP_FAILED) return of_errno();
    f->bytes = at;
    write_front(f->bytes, &f->front);
    if (o->settings_len) memcpy(f->bytes + f->front.settings, o->settings, o->settings_len);
    pthread_mutex_lock(&own_lock);
    int has_place = hindheap_add(f->bytes, f->len);
    pthread_mutex_unlock(&own_lock);
    if (!has_place) return HIND_MANY;
    p->places = (hindheap_places){f->bytes + f->front.first, f->front.block, f->front.stride, f->front.count, 0};
    return HIND_OK;
}

/* Takes the path: nobody else makes a file for it, nor has the one that lies there. */
static hind_code take_path(hindlib_pool *p) {
    pool_file found = {.fd = -1};
    do {
        drop(p->file.fd);
        p->file.fd = take(p->fresh, O_CREAT);
        if (p->file.fd < 0) return of_errno();
    } while (!is_at(p->fresh, p->file.fd));
    p->before = take(p->path, 0);
    if (p->before < 0) return errno == ENOENT ? HIND_OK : of_errno();
    found.fd = dup(p->before);
    hind_code code = found.fd < 0 ? HIND_SYSTEM : map(&found, 0);
    struct stat there;
    if (code == HIND_INVALID && !fstat(p->before, &there) && S_ISREG(there.st_mode) && !there.st_size) code = HIND_OK;
    if (found.bytes) munmap(found.bytes, found.len);
    if (found.fd >= 0) close(found.fd);
    return code;
}

hind_code hindlib_pool_make(const hind_node_options *o, const uint8_t digest[HINDLIB_DIGEST], hindlib_pool **pool) {
    hindlib_pool *p = calloc(1, sizeof *p);
    if (!p) return HIND_NOMEM;
    pthread_once(&is_told, tell);
    p->file.fd = p->before = -1;
    p->kept = o->pool_kept ? o->pool_kept : KEPT;
    if (p->kept > MOST_KEPT) p->kept = MOST_KEPT;
    size_t len = strnlen(o->pool_file, sizeof p->path);
    hind_code code = len < sizeof p->path - SUFFIX ? HIND_OK : HIND_TOOLONG;
    if (!code) {
        memcpy(p->path, o->pool_file, len);
        memcpy(p->fresh, o->pool_file, len);
        memcpy(p->fresh + len, ".new", 5);
        code = take_path(p);
    }
    describe(&p->file.front, o, digest);
    if (!code) code = lay_out(p, o);
    if (code) {
        int why = errno;
        hindlib_pool_free(p);
        errno = why;
    } else *pool = p;
    return code;
}

hindheap_places *hindlib_pool_places(hindlib_pool *pool) { return &pool->places; }

/* ---- earlier lives */

typedef struct {
    char folder[PATH_MAX], front[NAME_MAX + 1]; /* where the path's file lies, and its name with a '.' */
    uint64_t epochs[1024];                      /* of the files beside it, by their names; the least first */
    size_t count;
} beside;

static int by_number(const void *a, const void *b) {
    uint64_t x = *(const uint64_t *)a, y = *(const uint64_t *)b;
    return x < y ? -1 : x > y;
}

/* The sixteen digits behind the front of a name, if that is what it is. */
static int reads(const beside *b, const char *name, uint64_t *epoch) {
    size_t front = strlen(b->front);
    if (strncmp(name, b->front, front) || strlen(name) != front + SUFFIX - 1 || strspn(name + front, "0123456789abcdef") != SUFFIX - 1) return 0;
    *epoch = strtoull(name + front, NULL, 16);
    return 1;
}

static void look_beside(const hindlib_pool *p, beside *b) {
    const char *slash = strrchr(p->path, '/');
    size_t folder = slash ? (size_t)(slash - p->path) : 0;
    struct dirent *entry;
    b->count = 0;
    snprintf(b->folder, sizeof b->folder, "%.*s", (int)(slash ? folder : 1), slash ? p->path : ".");
    if (slash == p->path) snprintf(b->folder, sizeof b->folder, "/");
    snprintf(b->front, sizeof b->front, "%.*s.", NAME_MAX - 1, slash ? slash + 1 : p->path);
    DIR *all = opendir(b->folder);
    while (all && b->count < sizeof b->epochs / sizeof *b->epochs && (entry = readdir(all)))
        if (reads(b, entry->d_name, &b->epochs[b->count])) b->count++;
    if (all) closedir(all);
    qsort(b->epochs, b->count, sizeof *b->epochs, by_number);
}

static void name_aside(const hindlib_pool *p, uint64_t epoch, char path[PATH_MAX]) {
    size_t len = strlen(p->path);
    memcpy(path, p->path, len);
    snprintf(path + len, SUFFIX + 1, ".%016llx", (unsigned long long)epoch);
}

/* What lay at the path goes beside it, where it shows a page. */
static hind_code set_aside(hindlib_pool *p) {
    pool_file found = {.fd = dup(p->before)};
    char path[PATH_MAX];
    hind_code code = HIND_OK;
    if (found.fd < 0) return HIND_SYSTEM;
    if (!map(&found, 0) && shows_a_page(&found)) {
        uint64_t epoch = found.front.epoch;
        do name_aside(p, epoch++, path);
        while (!access(path, F_OK));
        if (rename(p->path, path)) code = HIND_SYSTEM;
    }
    if (found.bytes) munmap(found.bytes, found.len);
    close(found.fd);
    return code;
}

/* Lets the oldest go where more are kept than may be. */
static void keep_few(hindlib_pool *p) {
    char path[PATH_MAX];
    beside b;
    look_beside(p, &b);
    for (size_t i = 0; i + p->kept < b.count; i++) {
        name_aside(p, b.epochs[i], path);
        (void)unlink(path);
    }
}

hind_code hindlib_pool_settle(hindlib_pool *pool) {
    hind_code code = pool->places.taken == pool->places.count ? HIND_OK : HIND_SYSTEM;
    if (code) errno = ENOTSUP; /* the core would have its buffers elsewhere */
    if (!code && pool->before >= 0) code = set_aside(pool);
    if (!code && rename(pool->fresh, pool->path)) code = HIND_SYSTEM;
    if (code) return code;
    pool->is_settled = 1;
    drop(pool->before);
    pool->before = -1;
    keep_few(pool);
    return HIND_OK;
}

size_t hindlib_pool_earlier(const hindlib_pool *pool, pool_file *files, size_t most) {
    char path[PATH_MAX];
    size_t count = 0;
    beside b;
    look_beside(pool, &b);
    for (size_t i = b.count; i-- && count < most;) {
        name_aside(pool, b.epochs[i], path);
        if (pool_open(path, 1, &files[count])) continue;
        if (files[count].front.node == pool->file.front.node && files[count].front.epoch < pool->file.front.epoch) count++;
        else pool_close(&files[count]);
    }
    return count;
}

/* ---- notes */

/* A note says nothing while it is written. */
void hindlib_pool_told(hindlib_pool *pool, uint64_t number, const uint8_t *message, size_t len) {
    if (len > POOL_NOTE - POOL_NOTE_FRONT) return; /* none is so long */
    size_t at = pool->told++ % POOL_NOTES;
    uint8_t *note = pool_note(&pool->file, at);
    pool->unkept[at] = number + 1;
    __atomic_store_n(note, POOL_EMPTY, __ATOMIC_SEQ_CST);
    pool_put(note + 4, 4, len);
    pool_put(note + 8, 8, number);
    memcpy(note + POOL_NOTE_FRONT, message, len);
    __atomic_store_n(note, POOL_TOLD, __ATOMIC_SEQ_CST);
}

void hindlib_pool_kept(hindlib_pool *pool, uint64_t number) {
    for (size_t i = 0; i < POOL_NOTES; i++) {
        if (pool->unkept[i] != number + 1) continue;
        pool->unkept[i] = 0;
        __atomic_store_n(pool_note(&pool->file, i), POOL_KEPT, __ATOMIC_SEQ_CST);
    }
}

void hindlib_pool_end(hindlib_pool *pool) {
    if (pool) (void)flock(pool->file.fd, LOCK_UN);
}

void hindlib_pool_free(hindlib_pool *pool) {
    if (!pool) return;
    pthread_mutex_lock(&own_lock);
    if (pool->file.bytes) hindheap_remove(pool->file.bytes);
    pthread_mutex_unlock(&own_lock);
    /* only who has the lock of what was made beside the path may take it away */
    if (!pool->is_settled && pool->file.fd >= 0) (void)unlink(pool->fresh);
    pool_close(&pool->file);
    drop(pool->before);
    free(pool);
}
