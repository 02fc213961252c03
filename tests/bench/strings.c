/* The work of the program bench_strings in plain C: the measure of its speed. Nothing is tested here but the room of a set.
   In and out are the same: three hexadecimal numbers, rounds, members and words for a large set; and a checksum. */
typedef unsigned long u64;
typedef unsigned __int128 u128;
long read(int, void *, u64);
long write(int, const void *, u64);
void *memmove(void *, const void *, u64);
void *memset(void *, int, u64);

enum { K = 4, W = 8, SMALL = 64, LARGE = 1024 };
static u64 room; /* of a large set, LARGE at most */
#define ONES (((u128)1 << W) - 1)
#define LENGTH(s) ((int)((s) >> 120) & 15)

typedef struct { u64 count; u64 words[2 * SMALL]; } Small;
typedef struct { u64 count; u64 words[2 * LARGE]; } Large;

static u128 packed(int length, u128 slots) { return (u128)W << 124 | (u128)length << 120 | slots; }
static u128 member(const u64 *w, u64 i) { return (u128)w[2 * i + 1] << 64 | w[2 * i]; }

/* whether there was room */
static int add(u64 *count, u64 *w, u64 room, u128 x) {
    u64 lo = 0, hi = *count;
    while (lo < hi) {
        u64 mid = lo + (hi - lo) / 2;
        if (member(w, mid) < x) lo = mid + 1; else hi = mid;
    }
    if (lo < *count && member(w, lo) == x) return 1;
    if (*count == room) return 0;
    memmove(w + 2 * lo + 2, w + 2 * lo, (*count - lo) * 16);
    w[2 * lo] = (u64)x;
    w[2 * lo + 1] = (u64)(x >> 64);
    ++*count;
    return 1;
}
static int complete(u128 x) {
    int n = LENGTH(x);
    return x != packed(1, ONES) && (n >= K || (n && (x >> ((n - 1) * W) & ONES) == 0));
}
static u128 join(u128 x, u128 y) {
    if (y == packed(1, ONES) || LENGTH(y) == 0) return x;
    int a = x == packed(1, ONES) ? 0 : LENGTH(x), b = LENGTH(y), n = b < K - a ? b : K - a;
    u128 first = a ? x & (((u128)1 << 120) - 1) : 0;
    return packed(a + n, first | (y & (((u128)1 << n * W) - 1)) << a * W);
}
static u128 string(u64 i) {
    u64 s = i % 1000, n = s % 3 + 1;
    u128 a = 5 + s % 240, b = 5 + s * 7 % 240, c = 5 + s * 13 % 240;
    return packed((int)n, (a | b << W | c << 2 * W) & (((u128)1 << n * W) - 1));
}
static void set_of(Small *set, u64 from, u64 members) {
    set->count = 0;
    for (u64 i = 0; i < members; i++) add(&set->count, set->words, SMALL, string(from + i));
}
static void clear(Large *set) {
    memset(set->words, 0, set->count * 16);
    set->count = 0;
}
static int join_sets(Large *out, const Small *a, const Small *b) {
    clear(out);
    for (u64 i = 0; i < a->count; i++) {
        u128 x = member(a->words, i);
        if (complete(x)) { if (!add(&out->count, out->words, room, x)) return 0; continue; }
        for (u64 j = 0; j < b->count; j++)
            if (!add(&out->count, out->words, room, join(x, member(b->words, j)))) return 0;
    }
    return 1;
}
static int unite(Large *out, const Large *a, const Small *b) {
    clear(out);
    memmove(out, a, 8 + a->count * 16);
    for (u64 i = 0; i < b->count; i++) if (!add(&out->count, out->words, room, member(b->words, i))) return 0;
    return 1;
}
/* the count, and in the upper half of the word how many members are not complete: here it is found at the end alone */
static u64 count_word(const Large *set) {
    u64 open = 0;
    for (u64 i = 0; i < set->count; i++) open += !complete(member(set->words, i));
    return open << 32 | set->count;
}
static u64 mixed(u64 sum, u64 word) { return (sum + word) ^ sum >> 7; }
static u64 round_of(u64 r, u64 members) {
    static Large joined, sum;
    Small a, b;
    set_of(&a, r, members);
    set_of(&b, r + 500, members);
    if (!join_sets(&joined, &a, &b)) clear(&joined);
    if (!unite(&sum, &joined, &a)) clear(&sum);
    u64 h = mixed(0, count_word(&sum));
    for (u64 i = 0; i < 2 * room; i++) h = mixed(h, sum.words[i]);
    return h;
}
int main(void) {
    char text[64], digits[21];
    long size = read(0, text, sizeof text), i = 0;
    u64 n[3] = {0, 0, 0}, sum = 0;
    for (int j = 0; j < 3; j++, i++)
        for (; i < size && text[i] > ' '; i++) n[j] = n[j] * 16 + (u64)(text[i] <= '9' ? text[i] - '0' : text[i] - 'a' + 10);
    room = (n[2] - 1) / 2;
    for (u64 r = 0; r < n[0]; r++) sum = mixed(sum, round_of(r, n[1]));
    int at = 21;
    digits[--at] = '\n';
    do digits[--at] = (char)('0' + sum % 10); while (sum /= 10);
    write(1, digits + at, (u64)(21 - at));
    return 0;
}
