/* A cache of 4 blocks of 8 bytes over a store of 64 blocks. */
#include <stdio.h>
#include <string.h>

#include "fbr.h"

enum { N = 4, NNEW = 1, NOLD = 2, CMAX = 3, AMAX = 100, B = 8, M = 64 };

/* memory to lend; main asks the library whether the directory is long enough */
enum { WORDS = 70 };
static uint32_t directory[WORDS];
static uint8_t data[N * B];
static uint8_t store[M * B];

static uint32_t batch(const uint32_t *work, size_t words, const uint8_t *incoming, size_t incoming_len,
                      uint32_t *answers, uint8_t *outgoing, size_t outgoing_len) {
    return fbr_batch(directory, WORDS, data, sizeof data, store, sizeof store, work, words, incoming, incoming_len,
                     answers, words, outgoing, outgoing_len);
}

static void show(const char *name, uint32_t answer) {
    switch (FBR_KIND(answer)) {
    case FBR_HIT: printf("%s: hit, count %u\n", name, (unsigned)FBR_ANSWER_COUNT(answer)); break;
    case FBR_ENTERED: printf("%s: entered\n", name); break;
    case FBR_REPLACED:
        printf("%s: replaced %u%s\n", name, (unsigned)FBR_ANSWER_VICTIM(answer),
               FBR_ANSWER_WRITTEN_OUT(answer) ? ", written out" : "");
        break;
    case FBR_PURGED: printf("%s: purged, %u discarded\n", name, (unsigned)FBR_ANSWER_DISCARDED(answer)); break;
    case FBR_ABSENT: printf("%s: absent\n", name); break;
    case FBR_FLUSHED: printf("%s: %u written out\n", name, (unsigned)FBR_ANSWER_FLUSHED(answer)); break;
    }
}

static int stopped(uint32_t number) {
    fprintf(stderr, "refused %u: %s\n", (unsigned)number, fbr_number_text(number));
    return 1;
}

int main(void) {
    uint32_t number;
    if (fbr_directory_words(N, CMAX) > WORDS) return stopped(FBR_SHORT_DIRECTORY);
    memset(store, '.', sizeof store);
    printf("directory %d words, data %zu bytes, store %zu bytes\n", WORDS, sizeof data, sizeof store);

    number = fbr_fresh(N, NNEW, NOLD, CMAX, AMAX, B, M, directory, WORDS);
    if (number != FBR_ACCEPTED) return stopped(number);

    /* one write and five reads */
    const char *names[6] = {"write 10", "read 11", "read 12", "read 13", "read 10", "read 14"};
    uint32_t work[6] = {fbr_word(FBR_WRITE, 10), fbr_word(FBR_READ, 11), fbr_word(FBR_READ, 12),
                        fbr_word(FBR_READ, 13),  fbr_word(FBR_READ, 10), fbr_word(FBR_READ, 14)};
    const uint8_t incoming[B + 1] = "bag 0042";
    uint32_t answers[6];
    uint8_t outgoing[5 * B];
    number = batch(work, 6, incoming, B, answers, outgoing, sizeof outgoing);
    if (number != FBR_ACCEPTED) return stopped(number);
    for (int i = 0; i < 6; i++) show(names[i], answers[i]);
    printf("fourth read: %.8s\n", (const char *)outgoing + 3 * B);

    /* the store has the new bytes only after a flush */
    uint8_t out[B];
    if (fbr_look_into(directory, WORDS, data, sizeof data, store, sizeof store, 10, out, B) != B) return 1;
    printf("look at 10: %.8s\n", (const char *)out);
    printf("store of 10: %.8s\n", (const char *)store + 10 * B);
    uint32_t flush = fbr_word(FBR_FLUSH, 0);
    number = batch(&flush, 1, fbr_no_bytes(), 0, answers, fbr_no_bytes(), 0);
    if (number != FBR_ACCEPTED) return stopped(number);
    show("flush", answers[0]);
    printf("store of 10: %.8s\n", (const char *)store + 10 * B);

    /* there is no block 64 */
    uint32_t absent = fbr_word(FBR_READ, 64);
    number = batch(&absent, 1, fbr_no_bytes(), 0, answers, outgoing, B);
    if (number != FBR_ACCEPTED) printf("read 64: refused %u\n", (unsigned)number);
    return 0;
}
