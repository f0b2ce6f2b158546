/* A light client has the root of each block of a chain, and no bitmap. A server shows to it which validators were active at
 * a height. The client does not trust the server: it learns a bit only from bytes that verify against the root of the height.
 *
 * With the package in ~/mortarpink, in this folder:
 *
 *     cc light_client.c -I ~/mortarpink/include ~/mortarpink/lib/libmortarpink.a -o light_client && ./light_client */
#include "must.h"

#include <inttypes.h>
#include <string.h>

enum { WIDTH = 8, PROOF = 112, RANGE = 128, SHOWN = 16 };

/* The roots of the heights 1 and 2, which the client has from someone whom it trusts. Bit k says whether validator k was
 * active. */
static const char *const roots[] = {
    "fc8f7e612bf727a862905e04c5ca0fa1faf23eddd341b5b1fd05e30a70f030a6",
    "b4eed36b250799ee280653f18ab63f188a59492c1d82316c0da95a35310dd286",
};

/* What the server sends for the heights 1 and 2: the proof of validator 100, which shows the validators from 64 to 127. */
static const char *const proofs[] = {
    "000000000000000800000000000000c8000000000000000000000000000000010000000000000002"
    "ffffffffffffffffeb77310f210acaea03fd89af5b55e2768af3b4458d7af52e608b243359750af9"
    "4d5758fcc8d0723f578ed8ce5f70f0469a5d4110e67aa685d16c6d502d9052a2",
    "000000000000000800000000000000c8000000000000000000000000000000010000000000000002"
    "ffffffffefffffffeb77310f210acaea03fd89af5b55e2768af3b4458d7af52e608b243359750af9"
    "4d5758fcc8d0723f578ed8ce5f70f0469a5d4110e67aa685d16c6d502d9052a2",
};

/* The proof of a range at height 1, which shows the validators from 64 to 191. */
static const char *const range =
    "000000000000000800000000000000c8000000000000000000000000000000010000000000000002"
    "0000000000000002ffffffffffffffffffff3f0000000000eb77310f210acaea03fd89af5b55e276"
    "8af3b4458d7af52e608b243359750af93e7077fd2f66d689e0cee6a7cf5b37bf2dca7c979af356d0"
    "a31cbc5c85605c7d";

static uint8_t digit(char sign) {
    return (uint8_t)(sign <= '9' ? sign - '0' : sign - 'a' + 10);
}

/* Writes the bytes of hexadecimal digits. */
static void put(uint8_t *bytes, const char *digits) {
    for (; *digits; digits += 2) *bytes++ = (uint8_t)(digit(digits[0]) << 4 | digit(digits[1]));
}

/* Prints whether a validator was active at a height, if the proof shows it. */
static void print(uint64_t validator, size_t height, const uint8_t *proof, size_t size) {
    uint8_t root[32], bit = 0;
    put(root, roots[height - 1]);
    const mortarpink_status status = mortarpink_verify_bit(WIDTH, root, proof, size, validator, &bit);
    if (status == MORTARPINK_DONE) {
        printf("%s\n", bit ? "active" : "not active");
    } else {
        printf("refused, %s\n", mortarpink_status_text(status));
    }
}

/* Prints how many of the validators were active that the proof of the range shows. */
static void print_range(void) {
    uint8_t root[32], proof[RANGE], chunks[SHOWN] = {0};
    uint64_t length = 0, pruned_chunks = 0, first = 0;
    size_t size = 0;
    int active = 0;
    put(root, roots[0]);
    put(proof, range);
    must(mortarpink_verify_range(WIDTH, root, proof, RANGE, chunks, SHOWN, &size, &length, &pruned_chunks, &first));
    for (size_t k = 0; k < 8 * size; k++) active += chunks[k / 8] >> k % 8 & 1;
    printf("active from %" PRIu64 " to 191 at height 1, by %d bytes: %d of %zu\n", 64 * first, RANGE, active, 8 * size);
}

int main(void) {
    uint8_t sent[2][PROOF], forged[PROOF];
    for (size_t height = 1; height <= 2; height++) {
        put(sent[height - 1], proofs[height - 1]);
        printf("validator 100 at height %zu, by %d bytes: ", height, PROOF);
        print(100, height, sent[height - 1], PROOF);
    }
    const uint64_t others[] = {101, 150, 200};
    for (size_t k = 0; k < 3; k++) {
        printf("validator %" PRIu64 " at height 2, by the same bytes: ", others[k]);
        print(others[k], 2, sent[1], PROOF);
    }
    printf("validator 100 at height 1, by the bytes of height 2: ");
    print(100, 1, sent[1], PROOF);

    /* A server that wants the client to believe that validator 100 was active at height 2 sets its bit in the bytes. */
    memcpy(forged, sent[1], PROOF);
    forged[40 + 100 % 64 / 8] |= 1 << 100 % 8;
    printf("validator 100 at height 2, by forged bytes: ");
    print(100, 2, forged, PROOF);
    printf("validator 100 at height 2, by bytes that are cut off: ");
    print(100, 2, sent[1], 100);
    print_range();
    return 0;
}
