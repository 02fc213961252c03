/* The listing of one input through the archive alone: k, c and a table from standard input, the same text as the listing program's. It shows how a
   caller reads the result, and compare.sh holds it to stored listings. */
#include "jomankitu.h"

long read(int, void *, unsigned long);
long write(int, const void *, unsigned long);

enum { INPUT = 16384, WORDS = 4096, TEXT = 1 << 20 };
static uint8_t input[INPUT];
static uint64_t result[WORDS], scratch[WORDS], answer[16];
static char text[TEXT];
static size_t length;

static void put(char c) { if (length < TEXT) text[length++] = c; }
static void put_text(const char *s) { while (*s) put(*s++); }
static void put_number(uint64_t n) {
    char digits[20];
    int i = 0;
    do digits[i++] = (char)('0' + n % 10); while (n /= 10);
    while (i) put(digits[--i]);
}

/* A number of the table in seven-bit groups: 0, or the refusal 3 or 4. */
static int number(size_t size, size_t *at, uint64_t *value) {
    if (*at >= size) return 3;
    *value = input[(*at)++];
    if (*value < 128) return 0;
    if (*at >= size) return 3;
    uint64_t high = input[(*at)++];
    if (high == 0 || high >= 128) return 4;
    *value = *value - 128 + 128 * high;
    return 0;
}

static void put_set(size_t kind, size_t i, uint64_t c) {
    uint64_t part[2], slots[11];
    jomankitu_set_of(WORDS, kind, i, answer[1], answer[2], answer[3], c, part, 2);
    put(':');
    for (uint64_t m = 0; part[1] && m < jomankitu_set_count(result[part[0]]); m++) {
        const uint64_t *string = result + part[0] + 1 + 2 * m;
        jomankitu_unpack(string[0], string[1], slots, 11);
        put_text(" [");
        for (uint64_t j = 0; j < slots[0]; j++) {
            if (j) put(' ');
            if (slots[1 + j] == 65535) put('e'); else put_number(slots[1 + j]);
        }
        put(']');
    }
    put('\n');
}

static void put_kind(char letter, size_t kind, uint64_t count, uint64_t c) {
    for (uint64_t i = 0; i < count; i++) { put(letter); put(' '); put_number(i); put_set(kind, i, c); }
}

/* The table once more, for the production and place of each nonterminal in a right side. */
static void put_positions(size_t at, size_t size, uint64_t c) {
    uint64_t v, symbols, position = 0;
    for (int i = 0; i < 4; i++) number(size, &at, &v);
    for (uint64_t p = 0; p < answer[2]; p++) {
        number(size, &at, &v);
        number(size, &at, &symbols);
        for (uint64_t place = 1; place <= symbols; place++) {
            number(size, &at, &v);
            if (v % 2) continue;
            put_text("Q "); put_number(p); put(' '); put_number(place);
            put_set(3, position++, c);
        }
    }
}

static int list(size_t size) {
    size_t at = 0;
    uint64_t k, c;
    int r = number(size, &at, &k);
    if (!r) r = number(size, &at, &c);
    if (!r) r = (int)jomankitu_lookahead_sets(k, c, input + at, size - at, result, WORDS, scratch, WORDS, answer, 16);
    if (r) return r;
    put_text("k "); put_number(k);
    put_text(" width "); put_number(answer[4]);
    put_text(" rounds");
    for (uint64_t i = 0; i < k; i++) { put(' '); put_number(answer[5 + i]); }
    put_text(" follow "); put_number(answer[15]); put('\n');
    put_kind('N', 0, answer[1], c);
    put_kind('P', 1, answer[2], c);
    put_kind('F', 2, answer[1], c);
    put_positions(at, size, c);
    return 0;
}

int main(void) {
    size_t size = 0;
    long got;
    while (size < INPUT && (got = read(0, input + size, INPUT - size)) > 0) size += (size_t)got;
    int r = list(size);
    if (r) { put_text("refused "); put_number((uint64_t)r); put('\n'); }
    for (size_t at = 0; at < length && (got = write(1, text + at, length - at)) > 0;) at += (size_t)got;
    return 0;
}
