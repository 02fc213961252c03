/* What both C engines share: the table read and tested, strings as 128-bit numbers, and the call around `work`, which each engine has of its own.
   Nothing here is proved, and refusals 1 to 12 alone are tested. */
typedef unsigned long u64;
typedef unsigned char u8;
typedef unsigned short u16;
typedef unsigned __int128 u128;
void *memmove(void *, const void *, u64);
void *memcpy(void *, const void *, u64);
void *memset(void *, int, u64);
int memcmp(const void *, const void *, u64);

typedef struct { int n, t, start, p, q, left[512], from[513]; u16 sym[4096]; } Table;

static int number(const u8 *b, u64 len, u64 *at, unsigned *v) {
    if (*at >= len) return 3;
    if (b[*at] < 128) { *v = b[(*at)++]; return 0; }
    if (*at + 1 >= len) return 3;
    if (b[*at + 1] >= 128 || b[*at + 1] == 0) return 4;
    *v = b[*at] - 128 + 128 * b[*at + 1]; *at += 2; return 0;
}
static int field(const u8 *b, u64 len, u64 *at, unsigned lo, unsigned hi, int no, int *out) {
    unsigned v; int r = number(b, len, at, &v);
    if (r) return r;
    if (v < lo || v > hi) return no;
    *out = v; return 0;
}
static int read_table(const u8 *b, u64 len, Table *g) {
    u64 at = 0; int r, total = 0;
    if ((r = field(b, len, &at, 1, 128, 5, &g->n))) return r;
    if ((r = field(b, len, &at, 0, 4089, 5, &g->t))) return r;
    if ((r = field(b, len, &at, 0, g->n - 1, 6, &g->start))) return r;
    if ((r = field(b, len, &at, 0, 512, 5, &g->p))) return r;
    g->q = 0;
    for (int i = 0; i < g->p; i++) {
        int size;
        if ((r = field(b, len, &at, 0, g->n - 1, 6, &g->left[i]))) return r;
        if ((r = field(b, len, &at, 0, 64, 5, &size))) return r;
        if (total + size > 4096) return 5;
        g->from[i] = total;
        for (int j = 0; j < size; j++) {
            unsigned s;
            if ((r = number(b, len, &at, &s))) return r;
            if (s % 2 == 0 ? s / 2 >= (unsigned)g->n : s / 2 < 5 || s / 2 > (unsigned)g->t + 4) return 6;
            g->sym[total++] = s; g->q += s % 2 == 0;
        }
    }
    g->from[g->p] = total;
    return at == len ? 0 : 7;
}
static void marks(const Table *g, int terminals, char *m) {
    memset(m, 0, 128);
    for (int again = 1; again;) {
        again = 0;
        for (int i = 0; i < g->p; i++) {
            int all = !m[g->left[i]];
            for (int j = g->from[i]; all && j < g->from[i + 1]; j++)
                all = g->sym[j] % 2 ? terminals : m[g->sym[j] / 2];
            if (all) { m[g->left[i]] = 1; again = 1; }
        }
    }
}
static int accept(const Table *g) {
    char prod[128], null[128]; static char reach[128][128];
    marks(g, 1, prod); marks(g, 0, null);
    for (int i = 0; i < g->n; i++) if (!prod[i]) return 8;
    memset(reach, 0, sizeof reach);
    for (int i = 0; i < g->p; i++)
        for (int j = g->from[i]; j < g->from[i + 1] && g->sym[j] % 2 == 0; j++) {
            reach[g->left[i]][g->sym[j] / 2] = 1;
            if (!null[g->sym[j] / 2]) break;
        }
    for (int m = 0; m < g->n; m++) for (int a = 0; a < g->n; a++) if (reach[a][m])
        for (int b = 0; b < g->n; b++) reach[a][b] |= reach[m][b];
    for (int a = 0; a < g->n; a++) if (reach[a][a]) return 9;
    return 0;
}

/* strings of one width: order is the order of the 128-bit numbers */
static int W; static int C;
#define LEN(s) ((int)((s) >> 120) & 15)
#define ONES (((u128)1 << W) - 1)
static u128 head(int len) { return (u128)W << 124 | (u128)len << 120; }
static u128 eps(void) { return head(1) | ONES; }

/* FIRST, FOLLOW and the positions of g at k: 0, 11 or 12 */
static int work(const Table *g, int k, u64 *result, u64 *scratch, u64 *answer);

/* the record: refusal, n, p, q, width, ten rounds, rounds of FOLLOW */
static int told(const Table *g, u64 k, u64 *result, u64 need, u64 *scratch, u64 spare, u64 *answer) {
    memset(result, 0, need * 8);
    memset(scratch, 0, spare * 8);
    int r = work(g, (int)k, result, scratch, answer);
    memset(scratch, 0, spare * 8);
    if (r) {
        memset(result, 0, need * 8);
        memset(answer, 0, 128);
        return r;
    }
    answer[1] = g->n;
    answer[2] = g->p;
    answer[3] = g->q;
    answer[4] = W;
    return 0;
}
static int call(u64 k, u64 c, const u8 *table, u64 table_len, u64 *result, u64 result_len, u64 *scratch, u64 scratch_len, u64 *answer) {
    static Table g;
    int r;
    if (k < 1 || k > 10) return 1;
    if (c < 1 || c > 1024) return 2;
    if ((r = read_table(table, table_len, &g))) return r;
    if ((r = accept(&g))) return r;
    u64 size = 2 * c + 1, need = (2 * g.n + g.p + g.q) * size, spare = (2 * g.n + 4) * size;
    if (result_len < need || scratch_len < spare) return 10;
    C = (int)c;
    W = 0;
    for (int m = g.t + 6; m; m >>= 1) W++;
    return told(&g, k, result, need, scratch, spare, answer);
}
u64 analyse(u64 k, u64 c, const u8 *table, u64 table_len, u64 *result, u64 result_len, u64 *scratch, u64 scratch_len, u64 *answer, u64 answer_len) {
    if (answer_len < 16) return 10;
    memset(answer, 0, 128);
    return answer[0] = (u64)call(k, c, table, table_len, result, result_len, scratch, scratch_len, answer);
}
