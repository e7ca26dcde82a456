/* What the macros and inline functions of include/fbr.h give: one line of output for each line of input.
 *
 *   version           FBR_VERSION and FBR_VERSION_TEXT
 *   text NUMBER       fbr_number_text
 *   classes           FBR_CLASSES and FBR_OCCUPANCY
 *   class NUMBER      fbr_class_text
 *   answer WORD       kind, value, then each FBR_ANSWER_ macro in the header's order
 *   word KIND VALUE   fbr_word, and the number of a batch of that one word over a store of the most blocks
 *   empty             the number of a batch without words over the pointers for empty slices
 *   load SEED M COUNT LENGTH
 *                     the number of a load into so many words, at most 4, or over the pointer for empty slices for 0;
 *                     the state after it; then all four words, which were 7
 *   store LENGTH      a write and a flush over a store of so many bytes, M * B of which are right: the batch's number,
 *                     then a look's, the length of its part, and whether all memory was kept or something changed
 */
#include <inttypes.h>
#include <stdio.h>
#include <string.h>

#include "fbr.h"

#if FBR_VERSION < 1
#error "FBR_VERSION is no number"
#endif

enum { N = 2, CMAX = 1, B = 1, M = 262144, WORDS = 46 };
static uint32_t directory[WORDS];
static uint8_t data[N * B], store[M * B];

static uint32_t asked(void) {
    uint32_t number = 0;
    return scanf("%" SCNu32, &number) == 1 ? number : 0;
}

static uint64_t asked_wide(void) {
    uint64_t number = 0;
    return scanf("%" SCNu64, &number) == 1 ? number : 0;
}

static uint32_t fresh(void) {
    if (fbr_directory_words(N, CMAX) != WORDS) return FBR_SHORT_DIRECTORY;
    return fbr_fresh(N, 0, 1, CMAX, 1, B, M, directory, WORDS);
}

static uint32_t number_of(uint32_t word) {
    uint8_t in = 0, out;
    uint32_t answer, number = fresh();
    if (number != FBR_ACCEPTED) return number;
    return fbr_batch(directory, WORDS, data, sizeof data, store, sizeof store, &word, 1, &in, 1, &answer, 1, &out, 1);
}

static uint32_t number_of_none(void) {
    uint32_t number = fresh();
    if (number != FBR_ACCEPTED) return number;
    return fbr_batch(directory, WORDS, data, sizeof data, store, sizeof store, fbr_no_words(), 0, fbr_no_bytes(), 0,
                     fbr_no_words(), 0, fbr_no_bytes(), 0);
}

static void show_answer(uint32_t answer) {
    const uint32_t parts[10] = {FBR_KIND(answer),          FBR_VALUE(answer),         FBR_ANSWER_COUNT(answer),
                               FBR_ANSWER_HALVED(answer), FBR_ANSWER_VICTIM(answer), FBR_ANSWER_CHAINS(answer),
                               FBR_ANSWER_WRITTEN_OUT(answer), FBR_ANSWER_DISCARDED(answer),
                               FBR_ANSWER_FLUSHED(answer), FBR_ANSWER_PINNED(answer)};
    for (int i = 0; i < 10; i++) printf(i == 0 ? "%" PRIu32 : " %" PRIu32, parts[i]);
    printf("\n");
}

static void show_word(void) {
    uint32_t kind = asked();
    uint32_t word = fbr_word(kind, asked_wide());
    printf("%" PRIu32 " %" PRIu32 "\n", word, number_of(word));
}

/* What the calls over a store of any length may write to, the memory behind the store too, and a copy from before. */
static struct {
    uint32_t directory[WORDS], answers[2];
    uint8_t data[N * B], store[2 * M * B], out[B];
} lent, before;

static void show_store(size_t length) {
    const uint32_t work[2] = {fbr_word(FBR_WRITE, M - 1), fbr_word(FBR_FLUSH, 0)};
    const uint8_t in[B] = {1};
    memset(&lent, 0, sizeof lent);
    fbr_fresh(N, 0, 1, CMAX, 1, B, M, lent.directory, WORDS);
    memcpy(&before, &lent, sizeof lent);
    uint32_t number = fbr_batch(lent.directory, WORDS, lent.data, sizeof lent.data, lent.store, length, work, 2, in, B,
                                lent.answers, 2, fbr_no_bytes(), 0);
    uint32_t look = fbr_look_number(lent.directory, WORDS, lent.data, sizeof lent.data, lent.store, length, M - 1);
    size_t part = fbr_look_into(lent.directory, WORDS, lent.data, sizeof lent.data, lent.store, length, M - 1, lent.out,
                                sizeof lent.out);
    const char *after = memcmp(&lent, &before, sizeof lent) == 0 ? "kept" : "changed";
    printf("%" PRIu32 " %" PRIu32 " %zu %s\n", number, look, part, after);
}

static void show_load(void) {
    uint32_t seed = asked(), m = asked(), count = asked(), length = asked(), words[4] = {7, 7, 7, 7};
    uint32_t number = fbr_load(seed, m, count, length == 0 ? fbr_no_words() : words, length);
    printf("%" PRIu32 " %" PRIu32, number, fbr_load_state(seed, count));
    for (int i = 0; i < 4; i++) printf(" %" PRIu32, words[i]);
    printf("\n");
}

static int is(const char *a, const char *b) { return strcmp(a, b) == 0; }

static int show(const char *question) {
    if (is(question, "version")) printf("%d %s\n", FBR_VERSION, FBR_VERSION_TEXT);
    else if (is(question, "text")) printf("%s\n", fbr_number_text(asked()));
    else if (is(question, "classes")) printf("%d %d\n", FBR_CLASSES, FBR_OCCUPANCY);
    else if (is(question, "class")) printf("%s\n", fbr_class_text(asked()));
    else if (is(question, "answer")) show_answer(asked());
    else if (is(question, "word")) show_word();
    else if (is(question, "empty")) printf("%" PRIu32 "\n", number_of_none());
    else if (is(question, "load")) show_load();
    else if (is(question, "store")) show_store(asked());
    else return 0;
    return 1;
}

int main(void) {
    char question[16];
    while (scanf("%15s", question) == 1)
        if (!show(question)) return 1;
    return 0;
}
