/* The digest that a node says of what all nodes share. SHA-256 is held against the vectors of FIPS 180-4, and the digest against what sha256sum
 * says of the canonical lines of docs/FORMATS.md, "Settings of a service". */
#include "expect.h"
#include "within.h"
#include <string.h>

static void is_digest(const uint8_t digest[HINDLIB_DIGEST], const char *wanted) {
    char text[2 * HINDLIB_DIGEST + 1];
    for (int i = 0; i < HINDLIB_DIGEST; i++) snprintf(text + 2 * i, 3, "%02x", digest[i]);
    EXPECT(strcmp(text, wanted), 0);
}

/* The bytes come in runs of `run`. */
static void sha_is(const char *bytes, size_t len, size_t times, size_t run, const char *wanted) {
    hindlib_sha s;
    uint8_t digest[HINDLIB_DIGEST];
    hindlib_sha_begin(&s);
    for (size_t t = 0; t < times; t++)
        for (size_t at = 0; at < len; at += run) hindlib_sha_add(&s, bytes + at, len - at < run ? len - at : run);
    hindlib_sha_end(&s, digest);
    is_digest(digest, wanted);
}

static void vectors(void) {
    static const char two_blocks[] = "abcdbcdecdefdefgefghfghighijhijkijkljklmklmnlmnomnopnopq";
    for (size_t run = 1; run < 70; run++) {
        sha_is("abc", 3, 1, run, "ba7816bf8f01cfea414140de5dae2223b00361a396177a9cb410ff61f20015ad");
        sha_is("", 0, 1, run, "e3b0c44298fc1c149afbf4c8996fb92427ae41e4649b934ca495991b7852b855");
        sha_is(two_blocks, sizeof two_blocks - 1, 1, run, "248d6a61d20638b8e5c026930c3e6039a33ce45964ff2167f6ecedd419db06c1");
    }
    sha_is("aaaaaaaaaa", 10, 100000, 10, "cdc76e5c9914fb9281a1c7e284d73e67f1809a48a497200e046d39ccc7112cd0");
}

static void digest_is(const char *settings, const char *wanted) {
    uint8_t digest[HINDLIB_DIGEST];
    hindlib_digest(settings, strlen(settings), digest);
    is_digest(digest, wanted);
}

static void digests(void) {
    static const char *const none = "fc752aef3e65fb30825510f4ad14d6d50436e1d3fac7a4b9614845f12f860e27";
    static const char *const shop = "bb611f48cfa5d975cc876c0d917956d126099c71deeb601cef223534d2b39b3d";
    digest_is("", none);
    digest_is("nodes 128\nsize 4088\nclients 5\n", none);
    digest_is("# sizes\n\nclients 16\n#nodes 4\n", none);
    digest_is("nodes 4\nclients 16\ntriggerid 1\ntriggerid 2 4 100 10\n\nauto 0 percentile 2 1024 9900\n", shop);
    /* lines in another order, the rule of trigger id 1 said, other lines of its own */
    digest_is("triggerid 1 1 10 1\ntriggerid 2 4 100 10\nauto 0 percentile 2 1024 9900\nbuffers 64\nsize 4088\nclients 2\npins 1\nthreshold 1\nnodes 4\n", shop);
    digest_is("nodes 4\nsize 256\ntriggerid 1\ntriggerid 3 2 5 1\nauto 0 queue 3 2 5000 2\n", "772802a7d490f555e262bed21ce72bfef9b7df82affbc50263e2545c5ee60e45");
}

static void numbers(void) {
    static const char text[] = "# clients 9\nclients 16\nsize 65\n";
    EXPECT(hindlib_setting(text, sizeof text - 1, "clients", 64), 16);
    EXPECT(hindlib_setting(text, sizeof text - 1, "size", 4088), 65);
    EXPECT(hindlib_setting(text, sizeof text - 1, "nodes", 128), 128);
    EXPECT(hindlib_setting("", 0, "nodes", 128), 128);
}

int main(void) {
    vectors();
    digests();
    numbers();
    return failed != 0;
}
