/* The engine's call in plain C with joins by runs and unions by merging: the same record and words as engine.c leaves. A set is merged into another in
   place; the strings of one length, each followed by each of the cut second set, rise and need no search; the first part of a right side is its first
   product, and where every string in hand is complete the parts that are left are not joined. */
#include "rules.h"

#define LOW (((u128)1 << 120) - 1)
static u64 SIZE;                                          /* words of a set: a count, then the members */
static u128 ld(const u64 *m, u64 i) { return m[2 * i] | (u128)m[2 * i + 1] << 64; }
static void st(u64 *m, u64 i, u128 x) { m[2 * i] = (u64)x; m[2 * i + 1] = (u64)(x >> 64); }

/* a, with room for `room` members, gets those of b: first how many are in both, then from the back, so that nothing is overwritten before it is read.
   The count, or -1 (a untouched) where it is more than room; b does not overlap a */
static long unite_members(u64 *a, u64 na, const u64 *b, u64 nb, u64 room) {
    u64 i = 0, j = 0, both = 0;
    if (na && nb && ld(a, na - 1) < ld(b, 0)) {
        if (na + nb > room) return -1;
        memcpy(a + 2 * na, b, nb * 16);
        return (long)(na + nb);
    }
    while (i < na && j < nb) {
        u128 x = ld(a, i), y = ld(b, j);
        both += x == y;
        i += x <= y;
        j += y <= x;
    }
    u64 all = na + nb - both, n = all;
    if (all > room) return -1;
    if (both == nb) return (long)na;
    for (i = na, j = nb; j > 0;) {
        u128 y = ld(b, j - 1);
        if (i > 0) {
            u128 x = ld(a, i - 1);
            if (x > y) { st(a, --n, x); i--; continue; }
            i -= x == y;
        }
        st(a, --n, y); j--;
    }
    return (long)all;
}
/* b cut to r slots, rising, each once; at most nb members; d is b or does not overlap it */
static u64 cut(const u64 *b, u64 nb, int r, u64 *d) {
    u64 n = 0, from, f; u128 top = head(r + 1), mask = ((u128)1 << (r * W)) - 1;
    while (n < nb && ld(b, n) < top) n++;                 /* short enough: stay */
    if (d != b) memcpy(d, b, n * 16);
    for (from = 0; from < n && ld(d, from) < head(r); from++) ;
    f = from;                                             /* a guess at the next place: behind the last one found */
    for (u64 i = n; i < nb; i++) {
        u128 x = (ld(b, i) & mask) | head(r);
        if (f < n && ld(d, f) == x) { f++; continue; }
        u64 lo = from, hi = n;
        if (hi > lo && ld(d, hi - 1) < x) lo = hi;
        while (lo < hi) { u64 m = (lo + hi) / 2; if (ld(d, m) < x) lo = m + 1; else hi = m; }
        f = lo + 1;
        if (lo < n && ld(d, lo) == x) continue;
        memmove(d + 2 * lo + 2, d + 2 * lo, (n - lo) * 16);
        st(d, lo, x); n++;
    }
    return n;
}
/* the members x of l slots, `ends` of them with an end marker and none of them e, each followed by each of y, which is cut already; `has`: e is in y */
static u64 run(const u64 *x, u64 nx, u64 ends, int has, const u64 *y, u64 ny, int l, u64 *out) {
    u64 n = ends;
    memcpy(out, x, ends * 16);
    if (has) { memcpy(out + 2 * n, x + 2 * ends, (nx - ends) * 16); n += nx - ends; }
    for (u64 j = 0; j < ny; j++) {
        u128 z = ld(y, j);
        if (z == eps()) continue;
        u128 plus = ((z & LOW) << (l * W)) + ((u128)LEN(z) << 120);
        for (u64 i = ends; i < nx; i++) st(out, n++, ld(x, i) + plus);
    }
    return n;
}
/* adds a joined with b at k to the n members of out; t has the same room, d room for nb members. The count, or -1 where it is more than room */
static long join_members(u64 *out, u64 n, const u64 *a, u64 na, const u64 *b, u64 nb, int k, u64 room, u64 *t, u64 *d) {
    u64 from[12] = {0}, i = 0; int has = 0, ae = 0, most = nb ? LEN(ld(b, nb - 1)) : 0; long m;
    for (u64 j = 0; j < nb && ld(b, j) <= eps(); j++) has = ld(b, j) == eps();
    for (int l = 1; l <= k; l++) {
        from[l] = i;
        while (l < k && i < na && ld(a, i) < head(l + 1)) i++;
        if (l == 1 && k > 1) ae = i && ld(a, i - 1) == eps();
    }
    u64 whole = na - from[k];                             /* complete by their length */
    if (k == 1) { ae = whole && ld(a, na - 1) == eps(); whole -= ae; }
    if ((m = unite_members(out, n, a + 2 * from[k], whole, room)) < 0) return -1;
    if (ae && (m = unite_members(out, m, b, nb, room)) < 0) return -1;
    const u64 *y = b; u64 ny = nb;
    for (int l = 1; l < k; l++) {
        const u64 *x = a + 2 * from[l]; u64 ends = 0, nx = from[l + 1] - from[l] - (l == 1 && ae);
        if (!nx) continue;
        if (most > k - l) { ny = cut(y, ny, k - l, d); most = k - l; y = d; }
        u128 plain = head(l) | (u128)1 << ((l - 1) * W);
        while (ends < nx && ld(x, ends) < plain) ends++;
        if (ends + (nx - ends) * ny > room) return -1;
        u64 nr = run(x, nx, ends, has, y, ny, l, t);
        if ((m = unite_members(out, m, t, nr, room)) < 0) return -1;
    }
    return m;
}

/* ---- sets in blocks; what stands behind the members means nothing until the end */
typedef struct { u64 *hand, *made, *t, *d; } Work;
static void copy(u64 *to, const u64 *from) { memcpy(to, from, (1 + 2 * from[0]) * 8); }
static void one(u64 *s, u128 x) { s[0] = 1; st(s + 1, 0, x); }
static int equal(const u64 *x, const u64 *y) { return x[0] == y[0] && !memcmp(x + 1, y + 1, x[0] * 16); }
static int told_room(u64 *out, long n) {
    if (n < 0) return 11;
    out[0] = (u64)n;
    return 0;
}
static int unite(u64 *a, const u64 *b) { return told_room(a, unite_members(a + 1, a[0], b + 1, b[0], (u64)C)); }
static int join_add(u64 *out, const u64 *a, const u64 *b, int k, const Work *w) {
    return told_room(out, join_members(out + 1, out[0], a + 1, a[0], b + 1, b[0], k, (u64)C, w->t + 1, w->d + 1));
}
static int join_blocks(u64 *out, const u64 *a, const u64 *b, int k, const Work *w) { out[0] = 0; return join_add(out, a, b, k, w); }

/* the product of the parts from `from` to `to`, in w->hand */
static int product(const Table *g, int from, int to, const u64 *sets, int k, Work *w) {
    int r, parts = 0;
    one(w->hand, eps());
    while (from < to) {
        u64 part[3]; const u64 *p = part;
        if (g->sym[from] % 2 == 0) p = sets + (u64)(g->sym[from++] / 2) * SIZE;
        else {
            u128 s = 0; int len = 0;
            for (; from < to && g->sym[from] % 2; from++) if (len < k) { s |= (u128)(g->sym[from] / 2) << (len * W); len++; }
            one(part, s | head(len));
        }
        if (!parts++) { copy(w->hand, p); continue; }
        if (ld(w->hand + 1, 0) >= head(k) && ld(w->hand + 1, w->hand[0] - 1) != eps()) break;     /* all complete */
        if ((r = join_blocks(w->made, w->hand, p, k, w))) return r;
        u64 *x = w->hand; w->hand = w->made; w->made = x;
    }
    return 0;
}
static int follows(const Table *g, int k, const u64 *first, u64 *follow, u64 *pos, Work *w, u64 *answer) {
    int at = 0, r;
    for (int i = 0; i < g->p; i++) for (int j = g->from[i]; j < g->from[i + 1]; j++) if (g->sym[j] % 2 == 0) {
        if ((r = product(g, j + 1, g->from[i + 1], first, k, w))) return r;
        copy(pos + (u64)at++ * SIZE, w->hand);
    }
    for (int i = 0; i < g->n; i++) follow[(u64)i * SIZE] = 0;
    one(follow + (u64)g->start * SIZE, head(1));
    for (int added = 1; added;) {
        added = at = 0;
        for (int i = 0; i < g->p; i++) for (int j = g->from[i]; j < g->from[i + 1]; j++) if (g->sym[j] % 2 == 0) {
            u64 *a = follow + (u64)g->left[i] * SIZE, *b = follow + (u64)(g->sym[j] / 2) * SIZE, old = b[0];
            if (a == b) { copy(w->made, a); a = w->made; }
            if ((r = join_add(b, pos + (u64)at++ * SIZE, a, k, w))) return r;
            added |= b[0] != old;
        }
        answer[15]++;
    }
    at = 0;
    for (int i = 0; i < g->p; i++) for (int j = g->from[i]; j < g->from[i + 1]; j++) if (g->sym[j] % 2 == 0) {
        if ((r = join_blocks(w->made, pos + (u64)at * SIZE, follow + (u64)g->left[i] * SIZE, k, w))) return r;
        copy(pos + (u64)at++ * SIZE, w->made);
    }
    return 0;
}
/* one round of level k: whether a set changed, or a refusal below 0 */
static int round_of(const Table *g, int k, u64 *old, u64 *neu, Work *w) {
    int r, changed = 0;
    for (int i = 0; i < g->n; i++) neu[(u64)i * SIZE] = 0;
    for (int i = 0; i < g->p; i++) {
        if ((r = product(g, g->from[i], g->from[i + 1], old, k, w))) return -r;
        if ((r = unite(neu + (u64)g->left[i] * SIZE, w->hand))) return -r;
    }
    for (int i = 0; i < g->n; i++) if (!equal(neu + (u64)i * SIZE, old + (u64)i * SIZE)) { changed = 1; copy(old + (u64)i * SIZE, neu + (u64)i * SIZE); }
    return changed;
}
static int work(const Table *g, int k, u64 *result, u64 *scratch, u64 *answer) {
    int r, n = g->n;
    SIZE = 2 * (u64)C + 1;
    u64 *neu = scratch, *rest = scratch + (u64)n * SIZE;
    u64 *first = result, *prods = first + (u64)n * SIZE, *follow = prods + (u64)g->p * SIZE, *pos = follow + (u64)n * SIZE;
    Work w = { rest, rest + SIZE, rest + 2 * SIZE, rest + 3 * SIZE };
    for (int i = 0; i < n; i++) one(first + (u64)i * SIZE, eps());
    for (int level = 1; level <= k; level++)
        for (int rounds = 1, changed = 1; changed; rounds++) {
            if (rounds > n + 1) return 12;
            if ((changed = round_of(g, level, first, neu, &w)) < 0) return -changed;
            answer[4 + level] = (u64)rounds;
        }
    for (int i = 0; i < g->p; i++) {
        if ((r = product(g, g->from[i], g->from[i + 1], first, k, &w))) return r;
        copy(prods + (u64)i * SIZE, w.hand);
    }
    if ((r = follows(g, k, first, follow, pos, &w, answer))) return r;
    for (int i = 0; i < 2 * n + g->p + g->q; i++) { u64 *s = result + (u64)i * SIZE; memset(s + 1 + 2 * s[0], 0, (u64)(C - (int)s[0]) * 16); }
    return 0;
}
