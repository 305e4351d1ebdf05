/* Runs the cases of a vector file on standard input through the archive for C, on whatever processor it is compiled for, and compares the
   numbers of each answer and the sum of every lent slice: `N agreed, M differed`. With file names as arguments it says instead what the check
   of each table, the size of each of its types and the join of each two give, a line each with the sums of all slices. */
#include "scrieve.h"
#include <stdio.h>
#include <stdlib.h>
#include <string.h>

enum { PLACES = 20000, BYTES = 280000 };

static uint8_t a[BYTES], b[BYTES], out[BYTES], value[16];
static uint32_t index_[PLACES], work[PLACES], given[BYTES / 4], answer[5];

static uint32_t add(uint32_t sum, uint32_t byte) { return (uint32_t)(((uint64_t)sum * 257 + byte) % 4294967291u); }

static uint32_t add_bytes(uint32_t sum, const uint8_t *s, size_t n) {
    for (size_t i = 0; i < n; i++) sum = add(sum, s[i]);
    return sum;
}

static uint32_t sum_bytes(const uint8_t *s, size_t n) { return add_bytes(1, s, n); }

/* a place's low byte first, on any processor */
static uint32_t sum_places(const uint32_t *s, size_t n) {
    uint32_t sum = 1;
    for (size_t i = 0; i < n; i++)
        for (int k = 0; k < 32; k += 8) sum = add(sum, s[i] >> k & 255);
    return sum;
}

static void get(uint8_t *s, size_t n) {
    if (fread(s, 1, n, stdin) != n) {
        puts("cut short");
        exit(1);
    }
}

static uint32_t word(const uint8_t *s) { return s[0] | (uint32_t)s[1] << 8 | (uint32_t)s[2] << 16 | (uint32_t)s[3] << 24; }

static void get_words(uint32_t *to, size_t n) {
    for (size_t i = 0; i < n; i++) {
        uint8_t s[4];
        get(s, 4);
        to[i] = word(s);
    }
}

static void lend(size_t places, size_t works, size_t bytes) {
    for (size_t i = 0; i < places; i++) index_[i] = 4294967295u;
    for (size_t i = 0; i < works; i++) work[i] = 4294967295u;
    memset(out, 165, bytes);
}

/* one case: what was lent and passed, then the seven numbers that must be seen */
static int agrees(void) {
    uint32_t h[8], must[7], seen[7];
    get_words(h, 8);
    if (h[1] > PLACES || h[2] > PLACES || h[3] > BYTES || h[6] > BYTES || h[7] > BYTES) {
        puts("too large");
        exit(1);
    }
    get(a, h[6]);
    get(b, h[7]);
    get_words(must, 7);
    lend(h[1], h[2], h[3]);
    uint32_t part = sum_bytes(out, h[3]);
    switch (h[0]) {
    case 1: scrieve_check(a, h[6], index_, h[1], work, h[2], answer, 4); break;
    case 2:
        for (size_t i = 0; i < h[7] / 4; i++) given[i] = word(b + 4 * i);
        scrieve_size(a, h[6], given, h[7] / 4, h[4], answer, 4);
        break;
    case 3:
        /* the archive tells where the part begins; the vectors have its length and its sum */
        scrieve_name(a, h[6], h[4], answer, 4);
        part = sum_bytes(a + answer[2], answer[3]);
        answer[2] = 0;
        break;
    case 4: scrieve_join(a, h[6], b, h[7], index_, h[1], work, h[2], out, h[3], answer, 4); break;
    case 5:
        /* the value's sixteen bytes stand for the output */
        scrieve_member(a, h[6], index_, h[1], work, h[2], h[4], h[5], b, h[7], answer, 5, value, sizeof value);
        part = sum_bytes(value, sizeof value);
        break;
    case 6:
        /* the second output is as long as b, and its bytes go on behind the first's in the sum */
        memset(b, 165, h[7]);
        scrieve_split(a, h[6], h[4], h[5], index_, h[1], work, h[2], out, h[3], b, h[7], answer, 4);
        part = add_bytes(sum_bytes(out, h[3]), b, h[7]);
        break;
    case 7:
        /* the same of the lent bytes */
        memset(b, 165, h[7]);
        scrieve_make(a, h[6], index_, h[1], work, h[2], b, h[7], out, h[3], answer, 4);
        part = add_bytes(sum_bytes(out, h[3]), b, h[7]);
        break;
    case 8: scrieve_list(a, h[6], index_, h[1], work, h[2], out, h[3], answer, 4); break;
    case 9: scrieve_check_leaning(a, h[6], b, h[7], index_, h[1], work, h[2], answer, 4); break;
    case 10: {
        /* b is the module and then the index, whose places the field for an output counts; nothing is lent */
        size_t from = h[7] < 4 * h[3] ? 0 : h[7] - 4 * h[3], n = (h[7] - from) / 4;
        for (size_t i = 0; i < n; i++) given[i] = word(b + from + 4 * i);
        scrieve_size_leaning(a, h[6], h[5], b, from, given, n, h[4], answer, 4);
        h[1] = h[2] = h[3] = 0;
        break;
    }
    case 11:
        /* the archive tells which blob holds the part, and whether there is one */
        scrieve_name_leaning(a, h[6], b, h[7], h[4], answer, 4);
        part = sum_bytes((answer[1] ? b : a) + answer[2], answer[3]);
        answer[0] = answer[1] = answer[2] = 0;
        h[1] = h[2] = 0;
        break;
    case 12: scrieve_check_ext(a, h[6], b, h[7], index_, h[1], work, h[2], answer, 4); break;
    case 13:
        /* the archive tells where the record lies and how many bytes it has; nothing is lent */
        scrieve_ext_record(a, h[6], h[4], h[5], answer, 5);
        part = sum_bytes(a + answer[3], answer[4]);
        h[1] = h[2] = 0;
        break;
    default: return 0;
    }
    memcpy(seen, answer, 4 * sizeof *answer);
    seen[4] = sum_places(index_, h[1]);
    seen[5] = sum_places(work, h[2]);
    seen[6] = h[0] == 3 || (h[0] >= 5 && h[0] <= 7) || h[0] == 11 || h[0] == 13 ? part : sum_bytes(out, h[3]);
    return memcmp(seen, must, sizeof seen) == 0;
}

static size_t load(const char *name, uint8_t *to) {
    FILE *f = fopen(name, "rb");
    if (!f) {
        perror(name);
        exit(2);
    }
    size_t n = fread(to, 1, BYTES, f);
    fclose(f);
    return n;
}

static void say(const char *what) {
    printf("%s: %u %u %u %u, %u %u %u\n", what, (unsigned)answer[0], (unsigned)answer[1], (unsigned)answer[2], (unsigned)answer[3],
           (unsigned)sum_places(index_, PLACES), (unsigned)sum_places(work, PLACES), (unsigned)sum_bytes(out, BYTES));
}

static void tables(int n, char **names) {
    for (int i = 0; i < n; i++) {
        size_t len = load(names[i], a);
        lend(PLACES, PLACES, BYTES);
        scrieve_check(a, len, index_, PLACES, work, PLACES, answer, 4);
        say(names[i]);
        uint32_t types = answer[0] == 0 ? answer[2] : 0;
        for (uint32_t t = 0; t <= types; t++) {
            scrieve_size(a, len, index_, PLACES, t, answer, 4);
            say("size");
        }
        for (int j = 0; j < n; j++) {
            lend(PLACES, PLACES, BYTES);
            scrieve_join(a, len, b, load(names[j], b), index_, PLACES, work, PLACES, out, BYTES, answer, 4);
            say(names[j]);
        }
    }
}

int main(int words, char **names) {
    if (words > 1) {
        tables(words - 1, names + 1);
        return 0;
    }
    uint32_t opening[3], agreed = 0;
    get_words(opening, 3);
    for (uint32_t k = 0; k < opening[2]; k++) agreed += (uint32_t)agrees();
    printf("%u agreed, %u differed\n", (unsigned)agreed, (unsigned)(opening[2] - agreed));
    return agreed != opening[2];
}
