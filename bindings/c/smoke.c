/* Calls every function of jomankitu.h and checks what it leaves: the listing of the rules, some of its exercises, and a text of rules in ABNF. The exit status is 0 if all is
   right, else the number of the first check that is not. */
#include "jomankitu.h"

enum { K = 2, C = 8, SIZE = 2 * C + 1, WORDS = 4096 };
#define LENGTH(list) (sizeof(list) / sizeof *(list))
#define ONE 0x4100000000000000u /* the high word of one slot at width 4 */
#define TWO 0x4200000000000000u

static const uint8_t table[] = {0x02, 0x02, 0x00, 0x03, 0x00, 0x02, 0x0B, 0x02, 0x01, 0x01, 0x0D, 0x01, 0x00};
static const uint64_t record[16] = {0, 2, 3, 1, 4, 2, 2, 0, 0, 0, 0, 0, 0, 0, 0, 2};
#define OPEN(n) ((uint64_t)(n) << 32) /* in a count word: n members are unfinished */
/* the eight sets of the listing, each a count word and its members */
static const uint64_t sets[8][5] = {
    {OPEN(1) + 2, 5, ONE, 101, TWO}, {OPEN(2) + 2, 6, ONE, 15, ONE}, {OPEN(1) + 2, 5, ONE, 101, TWO}, {OPEN(1) + 1, 6, ONE},
    {OPEN(1) + 1, 15, ONE}, {1, 0, ONE}, {1, 0, ONE}, {1, 0, ONE},
};
static uint64_t result[WORDS], scratch[WORDS], answer[16], out[11];

static int same(const uint64_t *a, const uint64_t *b, size_t count) {
    for (size_t i = 0; i < count; i++) if (a[i] != b[i]) return 0;
    return 1;
}
static int is_set(size_t kind, size_t number, const uint64_t *set) {
    uint64_t part[2];
    if (jomankitu_set_of(WORDS, kind, number, 2, 3, 1, C, part, 2) || part[1] != SIZE) return 0;
    for (size_t i = 0; i < SIZE; i++) if (result[part[0] + i] != (i < 5 ? set[i] : 0)) return 0;
    return 1;
}
static int listing(void) {
    static const size_t counts[4] = {2, 3, 2, 1};
    if (jomankitu_lookahead_sets(K, C, table, sizeof table, result, WORDS, scratch, WORDS, answer, 15) != 10) return 1;
    if (jomankitu_lookahead_sets(11, C, table, sizeof table, result, WORDS, scratch, WORDS, answer, 15) != 1) return 10;
    if (jomankitu_lookahead_sets(K, 0, table, sizeof table, result, WORDS, scratch, WORDS, NULL, 0) != 2) return 11;
    if (jomankitu_lookahead_sets(K, C, NULL, 0, result, WORDS, scratch, WORDS, answer, 15) != 3) return 12;
    if (jomankitu_lookahead_sets(K, 1, table, sizeof table, result, WORDS, scratch, WORDS, answer, 15) != 10) return 13;
    if (jomankitu_lookahead_sets(K, C, table, sizeof table, NULL, 0, NULL, 0, answer, 16) != 10 || answer[0] != 10) return 14;
    for (size_t i = 0; i < WORDS; i++) if (result[i] || scratch[i]) return 15;
    if (jomankitu_lookahead_sets(11, C, table, sizeof table, result, WORDS, scratch, WORDS, answer, 16) != 1 || answer[0] != 1) return 2;
    if (jomankitu_lookahead_sets(K, C, table, sizeof table - 1, result, WORDS, scratch, WORDS, answer, 16) != 3) return 3;
    if (jomankitu_lookahead_sets(K, C, table, sizeof table, result, WORDS, scratch, WORDS, answer, 16)) return 4;
    if (!same(answer, record, 16)) return 5;
    for (size_t kind = 0, at = 0; kind < 4; kind++)
        for (size_t number = 0; number < counts[kind]; number++) if (!is_set(kind, number, sets[at++])) return 6;
    for (size_t i = 0; i < WORDS; i++) if (scratch[i] || (i >= 8 * SIZE && result[i])) return 7;
    if (jomankitu_set_of(WORDS, 3, 1, 2, 3, 1, C, out, 2) || out[0] || out[1]) return 8;
    return jomankitu_set_of(8 * SIZE - 1, 0, 0, 2, 3, 1, C, out, 2) || out[0] || out[1] ? 9 : 0;
}
static int strings(void) {
    static const uint16_t list[] = {6, 7, 8}, early[] = {5, 0, 6};
    static const uint64_t five_six_seven[11] = {3, 5, 6, 7};
    uint64_t x[2], y[2];
    if (jomankitu_width(7, out, 1) || out[0] != 4 || jomankitu_width(4095, out, 1) != 14 || out[0]) return 20;
    if (jomankitu_eps(7, out, 2) || out[0] != 15 || out[1] != ONE || jomankitu_eps(7, out, 1) != 10) return 21;
    if (jomankitu_end(7, out, 2) || out[0] || out[1] != ONE) return 22;
    if (jomankitu_make(list, LENGTH(list), 11, 8, NULL, 0) != 1 || jomankitu_make(list, LENGTH(list), 3, 7, out, 1) != 10) return 31;
    if (jomankitu_cut(1, 0, 11, out, 1) != 1 || jomankitu_cut(1, 0, 2, out, 1) != 10 || jomankitu_unpack(1, 0, out, 10) != 10) return 32;
    if (jomankitu_make(list, LENGTH(list), 3, 8, y, 2) || jomankitu_make(NULL, 0, 3, 8, x, 2) || jomankitu_push(x[0], x[1], 5, x, 2)) return 23;
    if (x[0] != 5 || x[1] != ONE) return 24;
    if (jomankitu_join(x[0], x[1], y[0], y[1], 3, out, 2)) return 25;
    x[0] = out[0];
    x[1] = out[1];
    if (jomankitu_unpack(x[0], x[1], out, 11) || !same(out, five_six_seven, 11)) return 26;
    if (jomankitu_cut(x[0], x[1], 2, out, 2) || out[0] != 101 || out[1] != TWO) return 27;
    if (jomankitu_complete(x[0], x[1], 3, out, 1) || out[0] != 1 || jomankitu_complete(x[0], x[1], 4, out, 1) || out[0]) return 28;
    if (jomankitu_order(15, ONE, 101, TWO, out, 1) || out[0] || jomankitu_order(15, ONE, 0, ONE, out, 1) || out[0] != 2) return 29;
    if (jomankitu_push(0, ONE, 5, out, 2) != 21 || out[0] || out[1] || jomankitu_make(early, 3, 3, 8, out, 2) != 21 || jomankitu_make(early, 3, 2, 8, out, 2)) return 31;
    return jomankitu_push(15, ONE, 5, out, 2) != 17 || jomankitu_unpack(1, 0, out, 11) != 13 ? 30 : 0;
}
static int of_sets(void) {
    static const uint64_t a[] = {OPEN(1) + 1, 5, ONE}, b[] = {OPEN(2) + 2, 5, ONE, 6, ONE}, joined[] = {2, 85, TWO, 101, TWO, 0, 0}, none[] = {0};
    static const uint64_t at_one[] = {2, 5, ONE, 6, ONE}; /* the members of b at k = 1, where they are complete */
    uint64_t told[1];
    if (jomankitu_union(2, a, LENGTH(a), b, LENGTH(b), out, 7, told, 1) || told[0] != 1 || !same(out, b, 5) || out[5]) return 40;
    if (jomankitu_union(2, b, LENGTH(b), a, LENGTH(a), out, 7, told, 1) || told[0]) return 41;
    if (jomankitu_union(2, a, LENGTH(a), b, LENGTH(b), out, 4, told, 1) != 11 || out[0] || jomankitu_union(2, a, 3, b, 5, out, 7, told, 0) != 10) return 42;
    if (jomankitu_union(11, a, 3, b, 5, out, 7, NULL, 0) != 1 || jomankitu_union(2, NULL, 0, b, 5, out, 7, told, 1) != 10) return 47;
    if (jomankitu_union(2, a, 2, b, 5, out, 7, NULL, 0) != 10 || jomankitu_union(2, a, 2, b, 5, out, 7, told, 1) != 13) return 48;
    if (jomankitu_disjoint(0, a, 3, b, 5, NULL, 0) != 1 || jomankitu_disjoint(2, a, 2, b, 5, NULL, 0) != 10) return 49;
    if (jomankitu_intersection(2, a, LENGTH(a), b, LENGTH(b), out, 7) || !same(out, a, 3) || out[3]) return 43;
    if (jomankitu_disjoint(2, a, LENGTH(a), b, LENGTH(b), told, 1) || told[0]) return 44;
    if (jomankitu_all_complete(1, at_one, LENGTH(at_one), told, 1) || told[0] != 1 || jomankitu_all_complete(2, b, LENGTH(b), told, 1) || told[0]) return 45;
    if (jomankitu_all_complete(1, none, LENGTH(none), told, 1) || told[0]) return 47;
    return jomankitu_join_sets(2, a, LENGTH(a), b, LENGTH(b), out, 7) || !same(out, joined, 7) ? 46 : 0;
}
/* the number of unfinished members: what a set's word says, and sets that say a wrong one, which every function refuses, the output as it came */
static int numbers(void) {
    static const uint64_t a[] = {OPEN(1) + 1, 5, ONE}, low[] = {2, 5, ONE, 6, ONE}, none[] = {0}, some[] = {OPEN(1)};
    uint64_t told[1], marks[7] = {7, 7, 7, 7, 7, 7, 7};
    if (jomankitu_set_count(sets[0][0]) != 2 || jomankitu_set_unfinished(sets[0][0]) != 1 || jomankitu_set_word(1, 2) != sets[0][0]) return 80;
    if (jomankitu_intersection(2, sets[0], 5, a, LENGTH(a), out, 7) || jomankitu_set_unfinished(out[0]) != 1 || !same(out, a, 3) || out[3]) return 81;
    if (jomankitu_union(2, a, LENGTH(a), low, LENGTH(low), marks, 7, told, 1) != 13 || told[0]) return 82;
    if (jomankitu_intersection(2, low, LENGTH(low), a, LENGTH(a), marks, 7) != 13) return 83;
    if (jomankitu_join_sets(1, a, LENGTH(a), none, LENGTH(none), marks, 7) != 13) return 84;
    if (jomankitu_disjoint(2, some, LENGTH(some), a, LENGTH(a), told, 1) != 13 || told[0]) return 85;
    if (jomankitu_all_complete(1, a, LENGTH(a), told, 1) != 13 || jomankitu_all_complete(2, low, LENGTH(low), told, 1) != 13) return 86;
    for (size_t i = 0; i < 7; i++) if (marks[i] != 7) return 87;
    return 0;
}
/* S -> 5 5 | 5 6 needs 2; of the listing's grammar S needs 0 and V needs 1 */
static int needed(void) {
    static const uint8_t two[] = {1, 2, 0, 2, 0, 2, 11, 11, 0, 2, 11, 13};
    static uint64_t told[258];
    if (jomankitu_needed_k(2, C, two, sizeof two, result, WORDS, scratch, WORDS, told, 258) || told[0] || told[1] != 1 || told[2] || told[130] != 2) return 50;
    if (jomankitu_needed_k(1, C, two, sizeof two, result, WORDS, scratch, WORDS, told, 258) || told[2] != 22 || told[130]) return 51;
    for (size_t i = 0; i < 258; i++) if (i != 1 && i != 2 && told[i]) return 52;
    if (jomankitu_needed_k(2, C, table, sizeof table, result, WORDS, scratch, WORDS, told, 258) || told[1] != 2 || told[130] || told[131] != 1) return 53;
    if (jomankitu_needed_k(11, C, two, sizeof two, result, WORDS, scratch, WORDS, told, 258) != 1 || told[0] != 1 || told[1]) return 54;
    result[0] = 7;
    if (jomankitu_needed_k(2, C, two, sizeof two, result, WORDS, scratch, WORDS, told, 257) != 10 || result[0] != 7 || told[0] != 1) return 55;
    return jomankitu_needed_k(2, C, two, sizeof two - 1, result, WORDS, scratch, WORDS, told, 0) != 3 ? 56 : 0;
}
/* the trees of S -> 5 5 | 5 6, which needs 2, and of the listing's grammar: S needs 0, V takes 6 or the end */
static int automata(void) {
    static const uint8_t two[] = {1, 2, 0, 2, 0, 2, 11, 11, 0, 2, 11, 13};
    static const uint8_t tree[] = {4, 0, 1, 5, 1, 0, 2, 5, 2, 6, 3, 1, 0, 2, 0}, trees[] = {1, 1, 0, 3, 0, 2, 0, 1, 6, 2, 3, 0, 2, 0};
    static uint8_t bytes[16];
    bytes[15] = 7;
    if (jomankitu_automata(2, C, two, sizeof two, bytes, 16, result, WORDS, scratch, WORDS, out, 1) || out[0] != sizeof tree || bytes[15] != 7) return 60;
    for (size_t i = 0; i < sizeof tree; i++) if (bytes[i] != tree[i]) return 61;
    if (jomankitu_automata(2, C, table, sizeof table, bytes, 16, result, WORDS, scratch, WORDS, out, 1) || out[0] != sizeof trees) return 62;
    for (size_t i = 0; i < sizeof trees; i++) if (bytes[i] != trees[i]) return 63;
    bytes[0] = 9;
    if (jomankitu_automata(2, C, two, sizeof two, bytes, 14, result, WORDS, scratch, WORDS, out, 1) != 10 || out[0] || bytes[0] != 9) return 64;
    if (jomankitu_automata(1, C, two, sizeof two, bytes, 16, result, WORDS, scratch, WORDS, out, 1) != 22 || bytes[0] != 9) return 65;
    result[0] = 7;
    return jomankitu_automata(2, C, two, sizeof two, bytes, 16, result, WORDS, scratch, WORDS, out, 0) != 10 || bytes[0] != 9 || result[0] != 7 ? 66 : 0;
}
/* the rows of S -> 5 5 | 5 6: right ones, the productions changed, one twice, one missing */
static int mark(void) {
    static const uint8_t two[] = {1, 2, 0, 2, 0, 2, 11, 11, 0, 2, 11, 13};
    enum { FIVE_FIVE = 0x55, FIVE_SIX = 0x65 }; /* at width 4 */
    const uint64_t high = 0x4200000000000000u;
    const uint64_t right[] = {0, FIVE_SIX, high, 1, 0, FIVE_FIVE, high, 0}, wrong[] = {0, FIVE_SIX, high, 1, 0, FIVE_FIVE, high, 1};
    const uint64_t twice[] = {0, FIVE_SIX, high, 1, 0, FIVE_FIVE, high, 0, 0, FIVE_SIX, high, 1};
    if (jomankitu_mark(2, C, two, sizeof two, right, 8, result, WORDS, scratch, WORDS, out, 4) || out[0] || out[1] || out[2] || out[3]) return 70;
    if (jomankitu_mark(2, C, two, sizeof two, wrong, 8, result, WORDS, scratch, WORDS, out, 4) != 24 || out[0] != 1 || out[2]) return 71;
    if (jomankitu_mark(2, C, two, sizeof two, twice, 12, result, WORDS, scratch, WORDS, out, 4) != 24 || out[0] != 2) return 72;
    if (jomankitu_mark(2, C, two, sizeof two, right, 4, result, WORDS, scratch, WORDS, out, 4) != 25 || out[0] || out[1] || out[2] != FIVE_FIVE || out[3] != high) return 73;
    if (jomankitu_mark(2, C, two, sizeof two, right, 7, result, WORDS, scratch, WORDS, out, 4) != 24 || out[0] != 1) return 74;
    if (jomankitu_mark(1, C, two, sizeof two, right, 8, result, WORDS, scratch, WORDS, out, 4) != 22 || out[0] || out[2]) return 75;
    result[0] = 7;
    return jomankitu_mark(2, C, two, sizeof two, right, 8, result, WORDS, scratch, WORDS, out, 3) != 10 || result[0] != 7 ? 76 : 0;
}
static int is_part(uint64_t (*part)(const uint8_t *, size_t, uint64_t, uint64_t *, size_t), const char *text, size_t size, uint64_t number,
                   uint64_t start, uint64_t length) {
    return !part((const uint8_t *)text, size, number, out, 2) && out[0] == start && out[1] == length;
}
static int rules(void) {
    static const char text[] = "S = \"id\" [v]\r\nV = \"version\"\r\n", used[] = "s = v\r\n", bad[] = "s = 1*v\r\n";
    static const uint8_t wanted[] = {3, 2, 0, 4, 0, 2, 11, 4, 2, 1, 2, 2, 0, 1, 1, 13};
    uint8_t bytes[20] = {0};
    const uint8_t *t = (const uint8_t *)text;
    size_t size = sizeof text - 1;
    bytes[16] = 7;
    if (jomankitu_read_abnf(t, size, bytes, 20, answer, 2) || answer[0] != 16 || answer[1]) return 60;
    for (size_t i = 0; i < 16; i++) if (bytes[i] != wanted[i]) return 61;
    if (bytes[16] != 7 || jomankitu_read_abnf(t, size, bytes, 15, answer, 2) != 10 || answer[0] || answer[1]) return 62;
    if (jomankitu_read_abnf((const uint8_t *)used, sizeof used - 1, bytes, 20, answer, 2) != 19 || answer[0] || answer[1] != 4) return 63;
    if (jomankitu_read_abnf((const uint8_t *)bad, sizeof bad - 1, bytes, 20, answer, 2) != 18 || answer[1] != 4) return 64;
    if (jomankitu_read_abnf(t, size, bytes, 20, answer, 1) != 10 || jomankitu_read_abnf((const uint8_t *)bad, sizeof bad - 1, bytes, 20, answer, 0) != 18) return 65;
    if (!is_part(jomankitu_nonterminal_part, text, size, 0, 0, 1) || !is_part(jomankitu_nonterminal_part, text, size, 1, 10, 1)) return 66;
    if (!is_part(jomankitu_nonterminal_part, text, size, 2, 9, 1) || !is_part(jomankitu_nonterminal_part, text, size, 65536, 0, 0)) return 67;
    return !is_part(jomankitu_terminal_part, text, size, 6, 19, 7) || jomankitu_terminal_part(t, size, 6, out, 1) != 10 ? 68 : 0;
}
int main(void) {
    int wrong = listing();
    if (!wrong) wrong = strings();
    if (!wrong) wrong = needed();
    if (!wrong) wrong = automata();
    if (!wrong) wrong = mark();
    if (!wrong) wrong = of_sets();
    if (!wrong) wrong = numbers();
    return wrong ? wrong : rules();
}
