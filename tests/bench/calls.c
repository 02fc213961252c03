/* Works on a file: FILE WAY LIMIT C TIMES. FILE is a table, or for read_abnf a text of rules. Linked with the library. WAY is one of
     needed    one call of needed_k
     engine    the engine's calls for k = 1 up to the limit
     automata  one call of automata
     abnf      one call of read_abnf; limit and c are of no use
     mark      one call of mark, for the rows on standard input
   Standard output says how many nonterminals, bytes or rows there were. The exit status is the refusal: of the call, or else the first 11 of a nonterminal.
     FILE list LIMIT C ROWS STEP
   writes rows for mark: the first ROWS of those of the table's automata, of which every STEPth is taken in turn, round and round. By 1 they come in
   order; a STEP that shares no divisor with their number takes each once. */
typedef unsigned long u64;
typedef unsigned char u8;
int open(const char *, int, ...);
long read(int, void *, u64);
long write(int, const void *, u64);

u64 jomankitu_needed_k(u64 limit, u64 c, const u8 *table, u64 table_len, u64 *result, u64 result_len, u64 *scratch, u64 scratch_len, u64 *answer, u64 answer_len);
u64 jomankitu_lookahead_sets(u64 k, u64 c, const u8 *table, u64 table_len, u64 *result, u64 result_len, u64 *scratch, u64 scratch_len, u64 *answer, u64 answer_len);
u64 jomankitu_automata(u64 limit, u64 c, const u8 *table, u64 table_len, u8 *out, u64 out_len, u64 *result, u64 result_len, u64 *scratch, u64 scratch_len, u64 *answer, u64 answer_len);
u64 jomankitu_mark(u64 limit, u64 c, const u8 *table, u64 table_len, const u64 *rows, u64 rows_len, u64 *result, u64 result_len, u64 *scratch, u64 scratch_len, u64 *answer, u64 answer_len);
u64 jomankitu_make(const unsigned short *list, u64 list_len, u64 k, u64 m, u64 *out, u64 out_len);
u64 jomankitu_read_abnf(const u8 *text, u64 text_len, u8 *table, u64 table_len, u64 *answer, u64 answer_len);

enum { BYTES = 65536, RESULT = 4864 * 2049, SCRATCH = 260 * 2049, OUT = 1 << 20, ROWS = 1 << 16, STATES = 2048 };
static u8 input[BYTES], out[OUT];
static u64 input_len, limit, c, told;
static u64 result[RESULT], scratch[SCRATCH], answer[258];
static u64 every[4 * ROWS], every_len, rows[4 * ROWS], rows_len; /* four words a row; lengths in rows */

static u64 number(const char *s) {
    u64 n = 0;
    while (*s) n = 10 * n + (u64)(*s++ - '0');
    return n;
}
static u64 needed(void) {
    u64 refusal = jomankitu_needed_k(limit, c, input, input_len, result, RESULT, scratch, SCRATCH, answer, 258);
    told = answer[1];
    for (u64 i = 0; i < told; i++) if (!refusal && answer[2 + i] == 11) refusal = 11;
    return refusal;
}
static u64 engine(void) {
    u64 refusal = 0;
    for (u64 k = 1; k <= limit && !refusal; k++)
        refusal = jomankitu_lookahead_sets(k, c, input, input_len, result, RESULT, scratch, SCRATCH, answer, 16);
    told = answer[1];
    return refusal;
}
static u64 automata(void) {
    u64 refusal = jomankitu_automata(limit, c, input, input_len, out, OUT, result, RESULT, scratch, SCRATCH, answer, 1);
    told = answer[0];
    return refusal;
}
static u64 abnf(void) {
    u64 refusal = jomankitu_read_abnf(input, input_len, out, OUT, answer, 2);
    told = answer[0];
    return refusal;
}
static u64 mark(void) {
    told = rows_len;
    return jomankitu_mark(limit, c, input, input_len, rows, 4 * rows_len, result, RESULT, scratch, SCRATCH, answer, 4);
}

/* the number of seven-bit groups at *at, which is moved behind it */
static u64 groups(const u8 **at) {
    u64 n = **at & 127, digits = 7;
    while (*(*at)++ & 128) n |= (u64)(**at & 127) << digits, digits += 7;
    return n;
}
/* the rows of the nonterminal A from state s on, which the first `depth` terminals of the list lead to; strings are packed for the greatest terminal m */
static void list_from(u64 A, const u8 *const *states, u64 s, unsigned short *list, u64 depth, u64 m) {
    const u8 *at = states[s];
    u64 accepting = groups(&at), arrows = groups(&at);
    if (accepting && every_len < ROWS) {
        u64 *row = every + 4 * every_len++;
        row[0] = A, row[3] = accepting - 1;
        jomankitu_make(list, depth, 10, m, row + 1, 2);
    }
    while (arrows--) {
        list[depth] = (unsigned short)groups(&at);
        list_from(A, states, groups(&at), list, depth + 1, m);
    }
}
/* the rows of all automata; one of one state has k = 0 and none */
static void list_rows(void) {
    static const u8 *states[STATES];
    unsigned short list[10];
    const u8 *head = input, *at = out;
    u64 n = groups(&head), m = groups(&head) + 5;
    for (u64 A = 0; A < n; A++) {
        u64 count = groups(&at);
        for (u64 s = 0; s < count; s++) {
            states[s] = at, groups(&at);
            for (u64 arrows = groups(&at); arrows; arrows--) groups(&at), groups(&at);
        }
        if (count > 1) list_from(A, states, 0, list, 0, m);
    }
}
/* writes the first of them, by steps */
static int list(u64 many, u64 step) {
    u64 refusal = automata();
    list_rows();
    for (u64 i = 0; i < many && i < every_len; i++) write(1, every + 4 * (i * step % every_len), 32);
    return (int)refusal;
}
static u64 fill(int file, void *bytes, u64 room) {
    u64 len = 0;
    for (long n; len < room && (n = read(file, (u8 *)bytes + len, room - len)) > 0;) len += (u64)n;
    return len;
}

static void say(u64 n) {
    char text[21];
    u64 at = sizeof text;
    text[--at] = '\n';
    do text[--at] = (char)('0' + n % 10); while (n /= 10);
    write(1, text + at, sizeof text - at);
}
int main(int count, char **args) {
    if (count < 6 || count != (args[2][0] == 'l' ? 7 : 6)) return 100;
    u64 refusal = 0;
    limit = number(args[3]), c = number(args[4]);
    input_len = fill(open(args[1], 0), input, BYTES);
    if (args[2][0] == 'l') return list(number(args[5]), number(args[6]));
    u64 (*work)(void) = args[2][0] == 'n' ? needed : args[2][0] == 'e' ? engine : args[2][0] == 'm' ? mark : args[2][1] == 'u' ? automata : abnf;
    if (work == mark) rows_len = fill(0, rows, sizeof rows) / 32;
    for (u64 times = number(args[5]); times; times--) refusal = work();
    say(told);
    return (int)refusal;
}
