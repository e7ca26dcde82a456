/* Saves directory, data and store of one moment to a file with a checksum, and takes them up again. */
#include <inttypes.h>
#include <stdio.h>
#include <string.h>

#include "fbr.h"

/* The lent memory of one cache, and its settings. */
struct cache {
    const uint32_t *settings;
    uint32_t *directory;
    size_t words;
    uint8_t *data;
    size_t data_len;
    uint8_t *store;
    size_t store_len;
};

/*
 * The file: "FBRSAVE1"; directory words, data bytes and store bytes as numbers of 8 bytes; the directory, 4 bytes a
 * word; data; store; the checksum of all before it, a number of 8 bytes. Numbers and words have the low byte first.
 */
static const char MARK[] = "FBRSAVE1";
enum { MARK_LEN = 8, HEADER_LEN = MARK_LEN + 3 * 8 };

/* An open file and the checksum, 64-bit FNV-1a, of the bytes that went through it. */
struct stream {
    FILE *file;
    uint64_t sum;
    uint64_t length;
    int good;
};

static struct stream opened(const char *path, const char *mode) {
    struct stream s = {fopen(path, mode), UINT64_C(14695981039346656037), 0, 1};
    s.good = s.file != NULL;
    return s;
}

static int closed_well(struct stream *s) {
    if (s->file != NULL && fclose(s->file) != 0) s->good = 0;
    return s->good;
}

static void add_to_sum(struct stream *s, const uint8_t *bytes, size_t len) {
    for (size_t i = 0; i < len; i++) s->sum = (s->sum ^ bytes[i]) * UINT64_C(1099511628211);
    s->length += len;
}

static void put(struct stream *s, const void *bytes, size_t len) {
    s->good = s->good && fwrite(bytes, 1, len, s->file) == len;
    add_to_sum(s, (const uint8_t *)bytes, len);
}

static void get(struct stream *s, void *bytes, size_t len) {
    s->good = s->good && fread(bytes, 1, len, s->file) == len;
    if (s->good) add_to_sum(s, (const uint8_t *)bytes, len);
}

/* A number of len bytes, low byte first whatever the machine's order. */
static void put_number(struct stream *s, uint64_t number, size_t len) {
    uint8_t bytes[8];
    for (size_t i = 0; i < len; i++) bytes[i] = (uint8_t)(number >> 8 * i & 0xff);
    put(s, bytes, len);
}

static uint64_t get_number(struct stream *s, size_t len) {
    uint8_t bytes[8] = {0};
    uint64_t number = 0;
    get(s, bytes, len);
    for (size_t i = 0; i < len; i++) number |= (uint64_t)bytes[i] << 8 * i;
    return number;
}

static void put_all(struct stream *s, const struct cache *c) {
    put(s, MARK, MARK_LEN);
    put_number(s, c->words, 8);
    put_number(s, c->data_len, 8);
    put_number(s, c->store_len, 8);
    for (size_t i = 0; i < c->words; i++) put_number(s, c->directory[i], 4);
    put(s, c->data, c->data_len);
    put(s, c->store, c->store_len);
    put_number(s, s->sum, 8);
}

/* Whether the file begins with the mark and the lengths of this cache's memory. */
static int header_fits(struct stream *s, const struct cache *c) {
    char mark[MARK_LEN] = {0};
    get(s, mark, MARK_LEN);
    int fits = memcmp(mark, MARK, MARK_LEN) == 0;
    fits &= get_number(s, 8) == c->words;
    fits &= get_number(s, 8) == c->data_len;
    fits &= get_number(s, 8) == c->store_len;
    return s->good && fits;
}

static void get_memory(struct stream *s, struct cache *c) {
    for (size_t i = 0; i < c->words; i++) c->directory[i] = (uint32_t)get_number(s, 4);
    get(s, c->data, c->data_len);
    get(s, c->store, c->store_len);
}

/* Whether the directory was started with these settings. Another cache's file may be as long and as sound. */
static int settings_are(const struct cache *c, const uint32_t *settings) {
    for (size_t i = 0; i < FBR_SETTINGS; i++)
        if (c->words <= i || FBR_VALUE(c->directory[i]) != settings[i]) return 0;
    return 1;
}

/* Whether the checksum comes next and is right, and the file ends with it. */
static int sum_is_right(struct stream *s) {
    uint64_t sum = s->sum;
    uint64_t saved = get_number(s, 8);
    return s->good && saved == sum && getc(s->file) == EOF;
}

/*
 * Saves to another name first: a save that is cut off leaves the old file. Returns the file's length, or 0.
 * Against a loss of power, also bring the file to the device (POSIX: fsync) before it gets its name.
 */
static uint64_t save(const char *path, const struct cache *c) {
    char other[4096];
    int len = snprintf(other, sizeof other, "%s.new", path);
    if (len < 0 || (size_t)len >= sizeof other) return 0;
    struct stream s = opened(other, "wb");
    put_all(&s, c);
    if (closed_well(&s) && rename(other, path) == 0) return s.length;
    remove(other);
    return 0;
}

/* Fills the memory from the file and says what is wrong with the file, NULL for nothing. */
static const char *fill(const char *path, struct cache *c) {
    const char *wrong = NULL;
    struct stream s = opened(path, "rb");
    if (!s.good) return "the file cannot be opened";
    if (!header_fits(&s, c)) {
        wrong = "not a file of this cache";
    } else {
        get_memory(&s, c);
        if (!sum_is_right(&s)) wrong = "checksum wrong";
        else if (!settings_are(c, c->settings)) wrong = "the file of a cache with other settings";
    }
    closed_well(&s);
    return wrong;
}

/* As fill; where the file is wrong, the directory is wiped, so that no batch goes on with what came in. */
static const char *take_up(const char *path, struct cache *c) {
    const char *wrong = fill(path, c);
    if (wrong != NULL) memset(c->directory, 0, c->words * sizeof c->directory[0]);
    return wrong;
}

/* Changes one bit of the file's byte at a place. */
static int damage(const char *path, long place) {
    struct stream s = opened(path, "r+b");
    int byte = s.good && fseek(s.file, place, SEEK_SET) == 0 ? getc(s.file) : EOF;
    s.good = byte != EOF && fseek(s.file, place, SEEK_SET) == 0 && putc(byte ^ 1, s.file) != EOF;
    return closed_well(&s);
}

/* The cache of this program. */
enum { N = 4, NNEW = 1, NOLD = 2, CMAX = 3, AMAX = 100, B = 8, M = 64, WORDS = 70 };
static const uint32_t settings[FBR_SETTINGS] = {N, NNEW, NOLD, CMAX, AMAX, B, M};
static uint32_t directory[WORDS];
static uint8_t data[N * B], store[M * B];
static struct cache cache = {settings, directory, WORDS, data, sizeof data, store, sizeof store};

static void wipe(void) {
    memset(directory, 0, sizeof directory);
    memset(data, 0, sizeof data);
    memset(store, 0, sizeof store);
}

static uint32_t sound(void) { return fbr_sound(directory, WORDS); }

/* One read or write of a block; its bytes go in or out. */
static uint32_t one(uint32_t kind, uint32_t block, uint8_t *bytes) {
    uint32_t work = fbr_word(kind, block), answer;
    uint8_t *in = kind == FBR_WRITE ? bytes : fbr_no_bytes(), *out = kind == FBR_READ ? bytes : fbr_no_bytes();
    return fbr_batch(directory, WORDS, data, sizeof data, store, sizeof store, &work, 1, in, kind == FBR_WRITE ? B : 0,
                     &answer, 1, out, kind == FBR_READ ? B : 0);
}

static void show_totals(void) {
    uint64_t totals[FBR_TOTALS];
    if (fbr_totals(directory, WORDS, totals, FBR_TOTALS) != FBR_ACCEPTED) return;
    printf("totals: reads %" PRIu64 ", writes %" PRIu64 ", in %" PRIu64 ", out %" PRIu64 "\n",
           totals[FBR_TOTAL_READS], totals[FBR_TOTAL_WRITES], totals[FBR_TOTAL_INS], totals[FBR_TOTAL_OUTS]);
}

static void show_read(uint32_t block) {
    uint8_t bytes[B];
    uint32_t number = one(FBR_READ, block, bytes);
    if (number == FBR_ACCEPTED) printf("read %u: %.8s\n", (unsigned)block, (const char *)bytes);
    else printf("read %u: refused %u: %s\n", (unsigned)block, (unsigned)number, fbr_number_text(number));
}

static void show_taking_up(const char *path) {
    const char *wrong = take_up(path, &cache);
    if (wrong == NULL) printf("taken up: checksum right, sound %u\n", (unsigned)sound());
    else printf("not taken up: %s\n", wrong);
}

/* A fresh cache over a store of dots, and one block written. */
static int start(void) {
    uint8_t bytes[B + 1] = "bag 0042";
    memset(store, '.', sizeof store);
    return fbr_directory_words(N, CMAX) <= WORDS &&
           fbr_fresh(N, NNEW, NOLD, CMAX, AMAX, B, M, directory, WORDS) == FBR_ACCEPTED &&
           one(FBR_WRITE, 10, bytes) == FBR_ACCEPTED;
}

static int saved(const char *path) {
    uint64_t length = save(path, &cache);
    show_totals();
    printf("saved: %" PRIu64 " bytes\n", length);
    return length != 0;
}

static void taken_up_again(const char *path) {
    wipe();
    printf("memory wiped: sound %u\n", (unsigned)sound());
    show_taking_up(path);
    show_read(10);
    show_totals();
}

static int damaged_file(const char *path) {
    const long data_start = HEADER_LEN + 4 * WORDS;
    if (!damage(path, data_start)) return 0;
    printf("one bit of the data changed in the file\n");
    show_taking_up(path);
    fill(path, &cache);
    printf("the library alone would have taken it: sound %u\n", (unsigned)sound());
    show_read(10);
    if (!damage(path, data_start)) return 0;
    printf("the bit changed back\n");
    show_taking_up(path);
    return 1;
}

static void damaged_link(void) {
    enum { MOST_RECENT = 9 }; /* the word that links to the most recently used resident */
    directory[MOST_RECENT] ^= 1;
    printf("one bit of a link changed in the directory: sound %u\n", (unsigned)sound());
    show_read(10);
}

int main(int arguments, char **argument) {
    if (arguments != 2) {
        fprintf(stderr, "usage: save FILE\n");
        return 2;
    }
    const char *path = argument[1];
    if (!start() || !saved(path)) return 1;
    taken_up_again(path);
    if (!damaged_file(path)) return 1;
    damaged_link();
    return 0;
}
