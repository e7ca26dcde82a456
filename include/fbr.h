/*
 * fbr.h: a block cache with frequency-based replacement, over lent memory.
 *
 * Every call works on memory that the caller lends for the length of the call. Nothing is kept between calls,
 * nothing is allocated and nothing is freed: directory, data and store are the caller's, and the whole state of a
 * cache stands in them. Slices pass as a pointer and an element count: 32-bit words for directory, work, answers,
 * settings, occupancy, loads and traces, signed 32-bit numbers for comparisons, 64-bit numbers for totals, bytes for
 * data, store, incoming and outgoing. A pointer must not be null and must be aligned for its elements, also where the
 * count is 0: fbr_no_bytes and fbr_no_words give pointers for that. Slices that one call may write to must not overlap
 * any other slice of that call. Nothing may run beside fbr_batch or fbr_fresh over the same cache; the other calls only
 * read a cache, or none, and may run beside each other. No call may write to memory that another running call uses.
 * Calls over different memory never meet.
 *
 * Platform: the archive is for x86-64 Linux. The words of directory, work, answers and traces have
 * the machine's byte order, which there is low byte first.
 *
 * Settings: N cache blocks (1 to 4,096), of which Nnew form the new section and Nold the old one (Nold at least 1,
 * Nnew + Nold at most N), chain limit Cmax (1 to 64), average limit Amax (1 to 1,000: counts are halved when a read or
 * a write leaves their average over the blocks in the cache above it), block size B (1 to 4,096 bytes) and the store's
 * blocks M (1 to 262,144, numbered from 0).
 *
 * Sizes of the lent memory:
 *   directory   fbr_directory_words(N, Cmax) words, or more: words past that stay untouched
 *   data        N * B bytes, or more
 *   store       M * B bytes, neither more nor less; block k is the B bytes from k * B on
 *   work        at most 1,024 words
 *   answers     one word for each work word, or more
 *   incoming    B bytes for each write, or more
 *   outgoing    B bytes for each read, or more
 * Pass the length that the store has, not M * B worked out from the settings: another store is found out by it alone.
 *
 * Numbers that fbr_fresh, fbr_batch, fbr_look_number, fbr_totals, fbr_occupancy, fbr_load and fbr_compare return,
 * checked in this order, 12 right after 7; fbr_totals, fbr_occupancy and fbr_compare check 10 first. One of these calls
 * that returns another number than 0 has changed nothing, except that these three write zeros with any number but 10.
 * fbr_number_text gives each number's text.
 *    0  accepted
 *    1  N outside its limits                                                 fresh, compare
 *    2  Nold is 0 or Nnew + Nold exceeds N                                   fresh, compare
 *    3  Cmax or Amax outside                                                 fresh, compare
 *    4  B or M outside                                                       fresh, compare
 *    5  directory too short                                                  fresh
 *    6  directory not sound                                                  batch, look, totals, occupancy
 *    7  data below N * B or store below M * B bytes                          batch, look
 *   12  store above M * B bytes                                              batch, look
 *    8  more than 1,024 work words                                           batch
 *    9  a kind outside 1 to 7, a block of M or more, a flush or a tick       batch; look: a block of M or more
 *       with a value
 *   10  answers, incoming or outgoing shorter than the batch needs           batch; totals: out below 4 numbers;
 *                                                                            occupancy: out below 16 words;
 *                                                                            compare: out below 5 numbers
 *   11  reads + writes + batch length above 2^56 - 1                         batch
 *   13  seed 0, M outside, words above 1,024 or above the room lent          load
 *   14  a trace above 4,096 words, or a word other than a read of a          compare
 *       block below M
 */
#ifndef FBR_H
#define FBR_H

#include <stddef.h>
#include <stdint.h>

/* The version, as a number for #if (major * 10000 + minor * 100 + patch) and as a text. */
#define FBR_VERSION 900
#define FBR_VERSION_TEXT "0.9.0"

#ifdef __cplusplus
extern "C" {
#endif

/* The returned numbers, in the order of the checks. */
enum {
    FBR_ACCEPTED = 0,
    FBR_BAD_N = 1,
    FBR_BAD_SECTIONS = 2,
    FBR_BAD_COUNT_LIMIT = 3,
    FBR_BAD_SIZE = 4,
    FBR_SHORT_DIRECTORY = 5,
    FBR_UNSOUND = 6,
    FBR_SHORT_DATA_OR_STORE = 7,
    FBR_LONG_STORE = 12,
    FBR_TOO_MANY_WORDS = 8,
    FBR_BAD_WORD = 9,
    FBR_SHORT_BUFFER = 10,
    FBR_TOTALS_FULL = 11,
    FBR_BAD_LOAD = 13,
    FBR_BAD_TRACE = 14
};

/* What a returned number says, in one line without the number. */
static inline const char *fbr_number_text(uint32_t number) {
    switch (number) {
    case FBR_ACCEPTED: return "accepted";
    case FBR_BAD_N: return "N is outside 1 to 4,096";
    case FBR_BAD_SECTIONS: return "Nold is 0, or Nnew + Nold exceeds N";
    case FBR_BAD_COUNT_LIMIT: return "Cmax is outside 1 to 64, or Amax outside 1 to 1,000";
    case FBR_BAD_SIZE: return "B is outside 1 to 4,096, or M outside 1 to 262,144";
    case FBR_SHORT_DIRECTORY: return "the directory is too short for the settings";
    case FBR_UNSOUND: return "the directory is not sound";
    case FBR_SHORT_DATA_OR_STORE: return "data is shorter than N x B bytes, or the store shorter than M x B";
    case FBR_LONG_STORE: return "the store is longer than M x B bytes";
    case FBR_TOO_MANY_WORDS: return "the batch has more than 1,024 work words";
    case FBR_BAD_WORD: return "a block is M or more, a work word has a wrong kind, or a flush or tick has a value";
    case FBR_SHORT_BUFFER: return "a buffer is too short: answers, incoming, outgoing or out";
    case FBR_TOTALS_FULL: return "reads + writes + batch length exceeds 2^56 - 1";
    case FBR_BAD_LOAD: return "a load has seed 0, M outside 1 to 262,144, or over 1,024 words or more than lent";
    case FBR_BAD_TRACE: return "a trace has over 4,096 words, or a word other than a read of a block below M";
    default: return "not a number of this library";
    }
}

/* A word has its kind in the top 4 bits and its value in the low 28. */
#define FBR_KIND(word) ((uint32_t)(word) >> 28)
#define FBR_VALUE(word) ((uint32_t)(word) & UINT32_C(0x0fffffff))

/*
 * Kinds of work words: flush and tick have the value 0, the others a block number.
 *   read, write   a block, through the cache
 *   purge         the block leaves the cache, unless it is pinned; bytes that are not in the store are given up
 *   flush         writes out every modified resident
 *   tick          writes out every modified resident that has already seen a tick, and marks every other modified one
 *                 as having seen it: given at regular times, it keeps the store at most two periods behind
 *   pin           the block, if it is resident, is neither replaced nor purged until it is unpinned
 *   unpin         the block may leave again
 */
enum { FBR_READ = 1, FBR_WRITE = 2, FBR_PURGE = 3, FBR_FLUSH = 4, FBR_TICK = 5, FBR_PIN = 6, FBR_UNPIN = 7 };

/*
 * A work word. What does not fit never becomes another block's word: a value above 28 bits becomes the largest value
 * and a kind above 15 becomes 15, and every batch refuses such a word (9, unless an earlier number holds).
 */
static inline uint32_t fbr_word(uint32_t kind, uint64_t value) {
    uint32_t most = UINT32_C(0x0fffffff);
    return (kind > 15 ? UINT32_C(15) : kind) << 28 | (value > most ? most : (uint32_t)value);
}

/*
 * Kinds of answer words and their values:
 *   hit            the count after any rise and before halving, plus 2^26 if counts were halved
 *   entered        an unused entry: 0, or 2^26 if counts were halved
 *   replaced       the victim's block + 2^18 * chains looked at + 2^25 if the victim was written out
 *   purged         1 if modified bytes were discarded, else 0
 *   absent         the block to purge, pin or unpin is not resident: 0
 *   flushed        how many blocks were written out, by a flush or by a tick; what a tick only marked does not count
 *   all pinned     the block is absent and all N residents are pinned, so it did not enter: 0. A read's bytes are zeros
 *                  and no block was copied in, a write's bytes are used up and given up; only the total of reads or
 *                  writes rises
 *   pinned         of a pin or an unpin: 1 if the block is pinned afterwards, else 0
 *   purge refused  the block to purge is pinned, and stays as it is: 0
 */
enum {
    FBR_HIT = 1,
    FBR_ENTERED = 2,
    FBR_REPLACED = 3,
    FBR_PURGED = 4,
    FBR_ABSENT = 5,
    FBR_FLUSHED = 6,
    FBR_ALL_PINNED = 7,
    FBR_PINNED = 8,
    FBR_PURGE_REFUSED = 9
};

/* The parts of an answer word, each for the kinds named. They take the whole word; yes is 1 and no is 0. */
#define FBR_ANSWER_COUNT(answer) (FBR_VALUE(answer) & UINT32_C(0x03ffffff))    /* hit: the count */
#define FBR_ANSWER_HALVED(answer) (FBR_VALUE(answer) >> 26 & UINT32_C(1))      /* hit, entered: counts were halved */
#define FBR_ANSWER_VICTIM(answer) (FBR_VALUE(answer) & UINT32_C(0x0003ffff))   /* replaced: the block that left */
#define FBR_ANSWER_CHAINS(answer) (FBR_VALUE(answer) >> 18 & UINT32_C(0x7f))   /* replaced: chains looked at */
#define FBR_ANSWER_WRITTEN_OUT(answer) (FBR_VALUE(answer) >> 25 & UINT32_C(1)) /* replaced: the victim was modified */
#define FBR_ANSWER_DISCARDED(answer) (FBR_VALUE(answer) & UINT32_C(1))         /* purged: modified bytes were lost */
#define FBR_ANSWER_FLUSHED(answer) FBR_VALUE(answer)                           /* flushed: blocks written out */
#define FBR_ANSWER_PINNED(answer) (FBR_VALUE(answer) & UINT32_C(1))            /* pinned: the block is pinned now */

/*
 * Pointers for empty slices, as of a batch without writes or reads. Pass them with count 0 only: nothing is read or
 * written through them, so one call may get the same pointer more than once.
 */
static inline uint8_t *fbr_no_bytes(void) {
    static uint8_t none;
    return &none;
}
static inline uint32_t *fbr_no_words(void) {
    static uint32_t none;
    return &none;
}

/*
 * Writes a fresh directory over dir: no residents, totals 0. Earlier words do not matter.
 * Returns 0, or 1 to 5 and leaves dir as it was.
 */
uint32_t fbr_fresh(uint32_t n, uint32_t nnew, uint32_t nold, uint32_t cmax, uint32_t amax, uint32_t b, uint32_t m,
                   uint32_t *dir, size_t dir_len);

/*
 * Runs the work words in order. The j-th write takes the j-th B bytes of incoming, the j-th read fills the j-th B
 * bytes of outgoing, whatever the answers are, and each work word gets one answer word. Buffer contents beyond these
 * parts stay untouched.
 * Returns 0, or 6 to 12 and leaves all buffers as they were. After 0 the directory is sound again.
 */
uint32_t fbr_batch(uint32_t *dir, size_t dir_len, uint8_t *data, size_t data_len, uint8_t *store, size_t store_len,
                   const uint32_t *work, size_t work_len, const uint8_t *incoming, size_t incoming_len,
                   uint32_t *answers, size_t answers_len, uint8_t *outgoing, size_t outgoing_len);

/*
 * The number of a look at a block: 0, or 6, 7, 12 or 9. Nothing changes. A block has 32 bits: compare a wider number
 * with M before you pass it.
 */
uint32_t fbr_look_number(const uint32_t *dir, size_t dir_len, const uint8_t *data, size_t data_len,
                         const uint8_t *store, size_t store_len, uint32_t block);

/*
 * Looks at a block: the part of data or of store that holds its present bytes, the resident's if there is one.
 * Returns the part's length, which is B, or 0 where fbr_look_number is not 0. The part is copied to the front of
 * out where out_len is at least that length, and the rest of out stays. Where out is shorter, B is returned all the
 * same and nothing is copied: lend B bytes, or compare. Nothing else changes.
 */
size_t fbr_look_into(const uint32_t *dir, size_t dir_len, const uint8_t *data, size_t data_len, const uint8_t *store,
                     size_t store_len, uint32_t block, uint8_t *out, size_t out_len);

/*
 * 1 if the directory is sound, else 0, for any words. Nothing changes.
 */
uint32_t fbr_sound(const uint32_t *dir, size_t dir_len);

/* The totals' places. */
enum { FBR_TOTAL_READS, FBR_TOTAL_WRITES, FBR_TOTAL_INS, FBR_TOTAL_OUTS, FBR_TOTALS };

/*
 * The totals since the directory was fresh, at the front of out in the order reads, writes, blocks in, blocks out; the
 * rest of out stays. Returns 0; or 10 where out_len is below 4, and leaves out as it was; or 6, with four zeros in out.
 * The directory stays as it is.
 */
uint32_t fbr_totals(const uint32_t *dir, size_t dir_len, uint64_t *out, size_t out_len);

/*
 * The count classes, and the words of an occupancy: class i, from 0, has out[i] residents and out[FBR_CLASSES + i]
 * modified ones.
 */
enum { FBR_CLASSES = 8, FBR_OCCUPANCY = 2 * FBR_CLASSES };

/* The counts of a class, from 0 to FBR_CLASSES - 1. */
static inline const char *fbr_class_text(uint32_t count_class) {
    switch (count_class) {
    case 0: return "1";
    case 1: return "2";
    case 2: return "3 to 4";
    case 3: return "5 to 8";
    case 4: return "9 to 16";
    case 5: return "17 to 64";
    case 6: return "65 to 1000";
    case 7: return "above 1000";
    default: return "not a count class";
    }
}

/*
 * The occupancy by count class, at the front of out: the residents of the eight classes, then the modified residents
 * of the eight; the rest of out stays. The first eight add up to the directory's residents, the others to its modified
 * marks. Returns 0; or 10 where out_len is below 16, and leaves out as it was; or 6, with sixteen zeros in out. The
 * directory stays as it is. No data or store is lent.
 */
uint32_t fbr_occupancy(const uint32_t *dir, size_t dir_len, uint32_t *out, size_t out_len);

/* The most words that one call draws: as many as a batch takes. */
enum { FBR_LOAD_WORDS = 1024 };

/*
 * A test load that anybody can repeat: count work words at the front of words, reads and writes of blocks below m; the
 * rest of words stays. The same seed and m give the same words everywhere. They are drawn from the states of
 * Marsaglia's 32-bit xorshift (shifts left 13, right 17, left 5), the seed being stepped before the first word: a
 * write where the state mod 4 is 0, else a read; the block is (state div 4) mod m.
 * Returns 0; or 13 where seed is 0, m outside its limits, count above 1,024 or words_len below count, and leaves words
 * as they were. No batch over a store of m blocks or more refuses such words with 9.
 */
uint32_t fbr_load(uint32_t seed, uint32_t m, uint32_t count, uint32_t *words, size_t words_len);

/*
 * The state after count words, to be the seed of the words that follow: so batch after batch is one load. It is never
 * 0, except where seed is 0 or count above 1,024.
 */
uint32_t fbr_load_state(uint32_t seed, uint32_t count);

/* The most words of a trace, and the places of a comparison's figures. */
enum { FBR_TRACE_WORDS = 4096 };
enum { FBR_INS_LRU, FBR_INS_CHOSEN, FBR_INS_OPT, FBR_GAIN, FBR_POSSIBLE_GAIN, FBR_COMPARISON };

/*
 * What the new rule gains on a trace of reads: the block ins of three caches with n blocks, each from empty and without
 * pins, at the front of out; the rest of out stays. out[0] is under LRU (Nnew 0, Nold 1), out[1] under these settings,
 * out[2] under OPT, which knows the reads to come: no cache of n blocks that starts empty, loads at every miss and at
 * no other time, and replaces one block only when full, has fewer. out[3] is LRU - chosen, which may be negative, and
 * out[4] LRU - OPT, which is not. Where that is 0 no improvement is given, and out[3] is 0 too. The paper's relative
 * improvement is out[3] / out[4].
 * The trace has at most 4,096 work words, each a read of a block below m. No cache is lent: the call runs one on its
 * stack, which takes some 165 KB of it.
 * Returns 0; or 10 where out_len is below 5, and leaves out as it was; or 1 to 4 for the settings, 14 for the trace,
 * with five zeros in out.
 */
uint32_t fbr_compare(uint32_t n, uint32_t nnew, uint32_t nold, uint32_t cmax, uint32_t amax, uint32_t b, uint32_t m,
                     const uint32_t *trace, size_t trace_len, int32_t *out, size_t out_len);

/*
 * The 32-bit FNV-1a of a block number's four bytes, low byte first.
 */
uint32_t fbr_hash(uint32_t block);

/*
 * The bucket count: the smallest power of two not below n; 0 for an n outside its limits.
 */
uint32_t fbr_buckets(uint32_t n);

/*
 * The words of a directory for n cache blocks and chain limit cmax: 24 + 2 * cmax + fbr_buckets(n) + 9 * n; 0 for an n
 * or cmax outside its limits.
 */
uint32_t fbr_directory_words(uint32_t n, uint32_t cmax);

/* Named settings, and the places of the settings. FBR_VALUE(dir[FBR_N]) is the N of a sound directory, and so on. */
enum { FBR_UNIX = 0, FBR_C51 = 1, FBR_CUST11 = 2 };
enum { FBR_N, FBR_NNEW, FBR_NOLD, FBR_CMAX, FBR_AMAX, FBR_B, FBR_M, FBR_SETTINGS };

/*
 * Named settings for n cache blocks of b bytes and a store of m blocks, at the front of out in the order N, Nnew,
 * Nold, Cmax, Amax, B, M; all 0 for an n outside its limits. Returns 7, the words written, or 0 and leaves out as it
 * was where which is above 2 or len below 7.
 */
size_t fbr_named(uint32_t which, uint32_t n, uint32_t b, uint32_t m, uint32_t *out, size_t len);

#ifdef __cplusplus
}
#endif

#endif
