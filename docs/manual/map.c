/* Makes two files of stores anew, maps each and lends it with the file's own length. One is the spare, which is larger. */
#define _POSIX_C_SOURCE 200809L
#include <fcntl.h>
#include <stdio.h>
#include <sys/mman.h>
#include <sys/stat.h>
#include <unistd.h>

#include "fbr.h"

enum { N = 4, NNEW = 1, NOLD = 2, CMAX = 3, AMAX = 100, B = 8, M = 64, WORDS = 70, SPARE_BLOCKS = 96 };
static uint32_t directory[WORDS];
static uint8_t data[N * B];

/* A mapped file. */
struct store {
    uint8_t *bytes;
    size_t len;
};

/* The length is what fstat says, never M * B: only so can the cache find out that this is another store. */
static struct store mapped(const char *path) {
    struct store s = {NULL, 0};
    struct stat about;
    int file = open(path, O_RDWR);
    if (file < 0) return s;
    if (fstat(file, &about) == 0) {
        void *bytes = mmap(NULL, (size_t)about.st_size, PROT_READ | PROT_WRITE, MAP_SHARED, file, 0);
        if (bytes != MAP_FAILED) {
            s.bytes = (uint8_t *)bytes;
            s.len = (size_t)about.st_size;
        }
    }
    close(file);
    return s;
}

/* Block 10 written and flushed. */
static uint32_t write_10(struct store s) {
    const uint32_t work[2] = {fbr_word(FBR_WRITE, 10), fbr_word(FBR_FLUSH, 0)};
    const uint8_t bytes[B + 1] = "bag 0042";
    uint32_t answers[2];
    return fbr_batch(directory, WORDS, data, sizeof data, s.bytes, s.len, work, 2, bytes, B, answers, 2, fbr_no_bytes(),
                     0);
}

/* What an operator wants to know of a store that got 12: its length beside the one that the directory asks for. */
static void compare(struct store s) {
    size_t b = FBR_VALUE(directory[FBR_B]), m = FBR_VALUE(directory[FBR_M]);
    printf("  mapped %zu bytes, the directory asks for %zu blocks of %zu: %zu bytes\n", s.len, m, b, m * b);
}

static int dots(struct store s) {
    for (size_t i = 0; i < s.len; i++)
        if (s.bytes[i] != '.') return 0;
    return 1;
}

static int show(const char *name, const char *path) {
    struct store s = mapped(path);
    if (s.bytes == NULL) {
        perror(path);
        return 0;
    }
    uint32_t number = write_10(s);
    printf("%s: %u, %s\n", name, (unsigned)number, fbr_number_text(number));
    if (number == FBR_LONG_STORE) compare(s);
    printf("  block 10: %.8s, %s\n", (const char *)s.bytes + 10 * B, dots(s) ? "all bytes as before" : "written");
    return munmap(s.bytes, s.len) == 0;
}

/* A file of so many blocks, all dots. */
static int made(const char *path, int blocks) {
    FILE *file = fopen(path, "wb");
    if (file == NULL) {
        perror(path);
        return 0;
    }
    for (int i = 0; i < blocks; i++) fputs("........", file);
    return fclose(file) == 0;
}

int main(int arguments, char **argument) {
    if (arguments != 3) {
        fprintf(stderr, "usage: map SPARE STORE (both files are made anew)\n");
        return 2;
    }
    if (!made(argument[1], SPARE_BLOCKS) || !made(argument[2], M)) return 1;
    if (fbr_fresh(N, NNEW, NOLD, CMAX, AMAX, B, M, directory, WORDS) != FBR_ACCEPTED) return 1;
    return show("the spare store", argument[1]) && show("the store", argument[2]) ? 0 : 1;
}
