/* Analyses a table file: FILE K C TIMES. Linked with the library or with tests/bench/engine.c, as CALL names it. Standard output gets the record's
   sixteen words and then the words of the result, of count words the lower half alone: the engines in C keep no number of unfinished members. The exit
   status is the refusal. */
typedef unsigned long u64;
typedef unsigned char u8;
int open(const char *, int, ...);
long read(int, void *, u64);
long write(int, const void *, u64);

u64 CALL(u64 k, u64 c, const u8 *table, u64 table_len, u64 *result, u64 result_len, u64 *scratch, u64 scratch_len, u64 *answer, u64 answer_len);

enum { BYTES = 16384, RESULT = 4864 * 2049, SCRATCH = 260 * 2049 };
static u8 table[BYTES];
static u64 result[RESULT], scratch[SCRATCH], answer[16];

static u64 number(const char *s) {
    u64 n = 0;
    while (*s) n = 10 * n + (u64)(*s++ - '0');
    return n;
}
static void put(const u64 *words, u64 count) {
    const char *at = (const char *)words;
    for (u64 left = 8 * count; left;) {
        long n = write(1, at, left);
        if (n <= 0) return;
        at += n;
        left -= (u64)n;
    }
}
int main(int count, char **args) {
    if (count != 5) return 100;
    int file = open(args[1], 0);
    u64 len = 0, refusal = 0, k = number(args[2]), c = number(args[3]);
    for (long n; len < BYTES && (n = read(file, table + len, BYTES - len)) > 0;) len += (u64)n;
    for (u64 times = number(args[4]); times; times--)
        refusal = CALL(k, c, table, len, result, RESULT, scratch, SCRATCH, answer, 16);
    put(answer, 16);
    u64 words = refusal ? 0 : (2 * answer[1] + answer[2] + answer[3]) * (2 * c + 1);
    for (u64 i = 0; i < words; i += 2 * c + 1) result[i] &= 0xffffffff;
    put(result, words);
    return (int)refusal;
}
