/* The engine's call in plain C, after the rules: the measure of its speed. Each member is put into its set by a search; products go from left to right,
   rounds up to the first that changes nothing. */
#include "rules.h"

static int complete(u128 s, int k) {
    int len = LEN(s);
    if (s == eps()) return 0;
    return len >= k || (len && (s >> ((len - 1) * W) & ONES) == 0);
}
static u128 join(u128 x, u128 y, int k) {        /* x not complete, both not empty */
    if (y == eps()) return x;
    int a = x == eps() ? 0 : LEN(x), b = LEN(y), take = b < k - a ? b : k - a;
    u128 low = a ? x & (((u128)1 << 120) - 1) : 0;
    return head(a + take) | low | (y & (((u128)1 << (take * W)) - 1)) << (a * W);
}
static u128 at(const u64 *s, u64 i) { return s[1 + 2 * i] | (u128)s[2 + 2 * i] << 64; }
static int add(u64 *s, u128 x) {                  /* 0 there already, 1 added, -1 no room */
    u64 lo = 0, hi = s[0];
    if (hi && at(s, hi - 1) < x) lo = hi;
    while (lo < hi) { u64 m = (lo + hi) / 2; u128 y = at(s, m); if (y == x) return 0; if (y < x) lo = m + 1; else hi = m; }
    if (s[0] == (u64)C) return -1;
    memmove(s + 3 + 2 * lo, s + 1 + 2 * lo, (s[0] - lo) * 16);
    s[1 + 2 * lo] = (u64)x; s[2 + 2 * lo] = (u64)(x >> 64); s[0]++;
    return 1;
}
static void clear(u64 *s) { memset(s + 1, 0, s[0] * 16); s[0] = 0; }
static int sets_join(const u64 *a, const u64 *b, u64 *out, int k) {
    clear(out);
    for (u64 i = 0; i < a[0]; i++) {
        u128 x = at(a, i);
        if (complete(x, k)) { if (add(out, x) < 0) return 11; }
        else for (u64 j = 0; j < b[0]; j++) if (add(out, join(x, at(b, j), k)) < 0) return 11;
    }
    return 0;
}
static int unite(u64 *a, const u64 *b, int *added) {
    for (u64 i = 0; i < b[0]; i++) { int r = add(a, at(b, i)); if (r < 0) return 11; *added |= r; }
    return 0;
}
static void one(u64 *s, u128 x) { clear(s); s[0] = 1; s[1] = (u64)x; s[2] = (u64)(x >> 64); }

/* parts from `from` to `to` joined into *hand; the three work sets are used in turn */
static int product(const Table *g, int from, int to, const u64 *sets, int k, u64 **hand, u64 **made, u64 *part) {
    one(*hand, eps());
    while (from < to) {
        const u64 *p;
        if (g->sym[from] % 2 == 0) p = sets + (g->sym[from++] / 2) * (2 * C + 1);
        else {
            u128 s = 0; int len = 0;
            for (; from < to && g->sym[from] % 2; from++) if (len < k) { s |= (u128)(g->sym[from] / 2) << (len * W); len++; }
            one(part, s | head(len)); p = part;
        }
        int r = sets_join(*hand, p, *made, k);
        if (r) return r;
        u64 *x = *hand; *hand = *made; *made = x;
    }
    return 0;
}
static int same(const u64 *a, const u64 *b, int count) {
    for (int i = 0; i < count; i++) {
        const u64 *x = a + i * (2 * C + 1), *y = b + i * (2 * C + 1);
        if (x[0] != y[0] || memcmp(x + 1, y + 1, x[0] * 16)) return 0;
    }
    return 1;
}
/* FIRST behind each nonterminal of a right side is worked out once and stands in its position's block, which becomes the position's set at the end */
static int follows(const Table *g, int k, const u64 *first, u64 *follow, u64 *pos, u64 *hand, u64 *made, u64 *part, u64 *answer) {
    int size = 2 * C + 1, at = 0, r;
    for (int i = 0; i < g->p; i++) for (int j = g->from[i]; j < g->from[i + 1]; j++) if (g->sym[j] % 2 == 0) {
        if ((r = product(g, j + 1, g->from[i + 1], first, k, &hand, &made, part))) return r;
        memcpy(pos + at++ * size, hand, (1 + 2 * hand[0]) * 8);
    }
    one(follow + g->start * size, head(1));
    for (int added = 1; added;) {
        added = at = 0;
        for (int i = 0; i < g->p; i++) for (int j = g->from[i]; j < g->from[i + 1]; j++) if (g->sym[j] % 2 == 0) {
            if ((r = sets_join(pos + at++ * size, follow + g->left[i] * size, made, k))) return r;
            if ((r = unite(follow + (g->sym[j] / 2) * size, made, &added))) return r;
        }
        answer[15]++;
    }
    at = 0;
    for (int i = 0; i < g->p; i++) for (int j = g->from[i]; j < g->from[i + 1]; j++) if (g->sym[j] % 2 == 0) {
        if ((r = sets_join(pos + at * size, follow + g->left[i] * size, made, k))) return r;
        clear(pos + at * size);
        memcpy(pos + at++ * size, made, (1 + 2 * made[0]) * 8);
    }
    return 0;
}
static int work(const Table *g, int k, u64 *result, u64 *scratch, u64 *answer) {
    int size = 2 * C + 1, r;
    u64 *old = scratch, *neu = scratch + g->n * size, *hand = scratch + 2 * g->n * size, *made = hand + size, *part = made + size;
    for (int i = 0; i < g->n; i++) one(old + i * size, eps());
    for (int level = 1; level <= k; level++) {
        int rounds = 0, done = 0, added = 0;
        while (!done) {
            if (rounds == g->n + 1) return 12;
            for (int i = 0; i < g->n; i++) clear(neu + i * size);
            for (int i = 0; i < g->p; i++) {
                if ((r = product(g, g->from[i], g->from[i + 1], old, level, &hand, &made, part))) return r;
                if ((r = unite(neu + g->left[i] * size, hand, &added))) return r;
            }
            rounds++; done = same(old, neu, g->n);
            u64 *x = old; old = neu; neu = x;
        }
        answer[4 + level] = rounds;
    }
    u64 *first = result, *prods = result + g->n * size, *follow = prods + g->p * size, *pos = follow + g->n * size;
    memcpy(first, old, g->n * size * 8);
    for (int i = 0; i < g->p; i++) {
        if ((r = product(g, g->from[i], g->from[i + 1], first, k, &hand, &made, part))) return r;
        memcpy(prods + i * size, hand, (1 + 2 * hand[0]) * 8);
    }
    return follows(g, k, first, follow, pos, hand, made, part, answer);
}
