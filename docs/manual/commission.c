/* Commissioning: the same load at every site, and the numbers that every site must see. */
#include <inttypes.h>
#include <stdio.h>

#include "fbr.h"

#define SEED UINT32_C(2463534242)
#define START UINT64_C(14695981039346656037) /* of the checksums */
enum { N = 64, B = 64, M = 96, BATCHES = 100, WORDS = FBR_LOAD_WORDS };

/* memory to lend; fresh says where the directory is too short */
enum { DIRECTORY = 680 };
static uint32_t directory[DIRECTORY], work[WORDS], answers[WORDS];
static uint8_t data[N * B], store[M * B], incoming[WORDS * B], outgoing[WORDS * B];

static unsigned halvings;
static uint64_t bytes_read = START;

static uint32_t fresh(void) {
    uint32_t s[FBR_SETTINGS];
    fbr_named(FBR_UNIX, N, B, M, s, FBR_SETTINGS);
    return fbr_fresh(s[FBR_N], s[FBR_NNEW], s[FBR_NOLD], s[FBR_CMAX], s[FBR_AMAX], s[FBR_B], s[FBR_M], directory,
                     DIRECTORY);
}

static uint32_t batch(const uint32_t *words, size_t count) {
    return fbr_batch(directory, DIRECTORY, data, sizeof data, store, sizeof store, words, count, incoming,
                     sizeof incoming, answers, WORDS, outgoing, sizeof outgoing);
}

/* what the writes of batch k, from 1, bring: byte i, from 0, of the j-th write, from 1 */
static void bring(int k) {
    for (int j = 1; j <= WORDS; j++)
        for (int i = 0; i < B; i++) incoming[(j - 1) * B + i] = (uint8_t)((k + 3 * j + 5 * i) % 256);
}

/* the 64-bit FNV-1a, gone on with over these bytes */
static uint64_t checksum(uint64_t sum, const uint8_t *bytes, size_t len) {
    for (size_t i = 0; i < len; i++) sum = (sum ^ bytes[i]) * UINT64_C(1099511628211);
    return sum;
}

/* of the answers those that say that counts were halved, of the words the reads, whose bytes are in outgoing */
static void note(void) {
    size_t reads = 0;
    for (int i = 0; i < WORDS; i++) {
        if (FBR_KIND(answers[i]) == FBR_HIT || FBR_KIND(answers[i]) == FBR_ENTERED)
            halvings += FBR_ANSWER_HALVED(answers[i]);
        if (FBR_KIND(work[i]) == FBR_READ) reads++;
    }
    bytes_read = checksum(bytes_read, outgoing, reads * B);
}

/* batch k of the load, whose next state becomes the seed */
static uint32_t next(int k, uint32_t *seed) {
    uint32_t number = fbr_load(*seed, M, WORDS, work, WORDS);
    if (number != FBR_ACCEPTED) return number;
    *seed = fbr_load_state(*seed, WORDS);
    bring(k);
    number = batch(work, WORDS);
    if (number == FBR_ACCEPTED) note();
    return number;
}

static uint32_t show(int k) {
    uint64_t t[FBR_TOTALS];
    uint32_t number = fbr_totals(directory, DIRECTORY, t, FBR_TOTALS);
    if (number != FBR_ACCEPTED) return number;
    printf("%7d  %5" PRIu64 "  %6" PRIu64 "  %9" PRIu64 "  %10" PRIu64 "  %8u\n", k, t[FBR_TOTAL_READS],
           t[FBR_TOTAL_WRITES], t[FBR_TOTAL_INS], t[FBR_TOTAL_OUTS], halvings);
    return number;
}

static int stopped(uint32_t number) {
    fprintf(stderr, "refused %u: %s\n", (unsigned)number, fbr_number_text(number));
    return 1;
}

int main(void) {
    uint32_t seed = SEED, flush = fbr_word(FBR_FLUSH, 0), number = fresh();
    if (number != FBR_ACCEPTED) return stopped(number);
    printf("batches  reads  writes  blocks in  blocks out  halvings\n");
    for (int k = 1; k <= BATCHES; k++) {
        number = next(k, &seed);
        if (number == FBR_ACCEPTED && (k == 1 || k == 10 || k == BATCHES)) number = show(k);
        if (number != FBR_ACCEPTED) return stopped(number);
    }
    number = batch(&flush, 1);
    if (number != FBR_ACCEPTED) return stopped(number);
    printf("a flush: %u written out\n", (unsigned)FBR_ANSWER_FLUSHED(answers[0]));
    printf("checksum of all bytes read: %016" PRIx64 "\n", bytes_read);
    printf("checksum of the store: %016" PRIx64 "\n", checksum(START, store, sizeof store));
    printf("state of the load: %" PRIu32 "\n", seed);
    return 0;
}
