/* The library for C: target/staticlib/libexports.a (bindings/archive), for x86-64 Linux.

   A list is passed as a pointer and the number of its elements; one without elements may be NULL and 0. No two lists of one call may overlap
   where one of them is written. Each function returns the number of a refusal, 0 where there is none (docs: the table of refusals). Its other
   numbers go to the words that are lent last, each of them 0 on a refusal. If those words are too few, it writes nothing at all and returns 10,
   in the table's order: where one of 1 to 9 would be refused with words enough, it returns that, and 10 comes before any later number.
   A string is two words, the low one first. A set is a count word, then its members in order, two words each, then zeros. The lower half of the count
   word is the number of members, 4,294,967,295 at most; the upper half is how many of them are not complete at the k of the call, so a set is one at its
   k: where the number is wrong it is refused 13. A set without members is a 0 at every k; jomankitu_set_count and jomankitu_set_unfinished take a count
   word apart, and jomankitu_set_word makes one. */
#ifndef JOMANKITU_H
#define JOMANKITU_H
#include <stddef.h>
#include <stdint.h>
#ifdef __cplusplus
extern "C" {
#endif

/* The number of members that a count word says, how many of them are unfinished, and the count word of both. */
static inline uint64_t jomankitu_set_count(uint64_t word) { return word & 0xffffffffu; }
static inline uint64_t jomankitu_set_unfinished(uint64_t word) { return word >> 32; }
static inline uint64_t jomankitu_set_word(uint64_t unfinished, uint64_t count) { return unfinished << 32 | count; }

/* FIRST and FOLLOW of a table at k (1 to 10), with room for c (1 to 1,024) members in each set. result needs (2n + p + q)(2c + 1) words and
   scratch (2n + 4)(2c + 1). answer gets 16 words: refusal, n, p, q, width, the rounds of ten levels, the rounds of FOLLOW. */
uint64_t jomankitu_lookahead_sets(uint64_t k, uint64_t c, const uint8_t *table, size_t table_len, uint64_t *result, size_t result_len,
                                  uint64_t *scratch, size_t scratch_len, uint64_t *answer, size_t answer_len);

/* The smallest k from 1 to limit (1 to 10) that each nonterminal of a table needs, with room for c members in each set; 0 for a nonterminal with one
   production. result and scratch as above; both are worked in, and what is needed of them ends zero. answer gets 258 words: refusal, n, the refusal of
   each of 128 nonterminals (0, 11 or 22), the k of each of 128. If those are too few, it returns the refusal of this call with result and scratch of no
   words (1 to 9, else 10) and writes nothing at all. */
uint64_t jomankitu_needed_k(uint64_t limit, uint64_t c, const uint8_t *table, size_t table_len, uint64_t *result, size_t result_len,
                            uint64_t *scratch, size_t scratch_len, uint64_t *answer, size_t answer_len);

/* The decision automata of a table's nonterminals, in turn, at the front of out: for each nonterminal the prefix tree of what a reader may have ahead, at
   the k (up to limit) that it needs. In seven-bit groups, low group first, top bit set when another follows: the number of states; for each state its
   production plus 1, 0 for none, the number of its transitions, and for each of these a terminal and the state that it leads to, always a later one.
   A reader starts in state 0. c, result and scratch as above. Refusals: those of jomankitu_needed_k; then the lowest nonterminal's, 11 or 22; 23 if a tree
   has more than 2,048 states; 10 if out is too short. On a refusal out is as it came; bytes behind the written ones are too. answer gets 1 word: how many
   bytes are written. If there is none, it returns the refusal of this call with out, result and scratch of no elements and writes nothing at all. */
uint64_t jomankitu_automata(uint64_t limit, uint64_t c, const uint8_t *table, size_t table_len, uint8_t *out, size_t out_len, uint64_t *result,
                            size_t result_len, uint64_t *scratch, size_t scratch_len, uint64_t *answer, size_t answer_len);

/* Marks a hand-written prediction table against the joined sets of jomankitu_needed_k. A row is four words: a nonterminal, the two words of a string, which
   must be made for the greatest terminal t + 5, and the production that is to be taken on it; rows come in any order, and rows_len counts words.
   Accepted (0) where for every nonterminal with more than one production the rows give each of its strings its one production, and hold nothing else.
   Refusals: those of jomankitu_needed_k; then the lowest nonterminal's, 11 or 22; 24 for a bad row; 25 for a missing string. c, result and scratch as
   above. answer gets 4 words: for 24 the number of the first bad row, from 0; for 25, behind a 0, the nonterminal of the first missing string and its two
   words; else zeros. If those are too few, it returns the refusal of this call with result and scratch of no words and writes nothing at all. */
uint64_t jomankitu_mark(uint64_t limit, uint64_t c, const uint8_t *table, size_t table_len, const uint64_t *rows, size_t rows_len, uint64_t *result,
                        size_t result_len, uint64_t *scratch, size_t scratch_len, uint64_t *answer, size_t answer_len);

/* Where in a result of len words a set begins, and how many words it has; 0 and 0 if there is no such set, or len is less than the whole
   result needs. Kinds: 0 FIRST of nonterminals, 1 FIRST of productions, 2 FOLLOW of nonterminals, 3 positions. out gets 2 words. */
uint64_t jomankitu_set_of(size_t len, size_t kind, size_t number, size_t n, size_t p, size_t q, size_t c, uint64_t *out, size_t out_len);

/* The table of a text of rules in ABNF (RFC 5234: names, concatenation, "/", quoted literals, "[ ]", comments; lines end in CRLF), in the first
   bytes of table; the other bytes stay as they came. answer gets 2 words: how many bytes are written, and the place of a refusal in the text, from 0;
   on a refusal (18, 19, 20, or 10 if the bytes are too few) the first is 0, else the second. With fewer than 2 words the number is that of no bytes. */
uint64_t jomankitu_read_abnf(const uint8_t *text, size_t text_len, uint8_t *table, size_t table_len, uint64_t *answer, size_t answer_len);

/* Where in a text of rules the name of a nonterminal begins, or the "[" of its group, and how many bytes it has; 0 and 0 if there is no such
   number, or the text is refused by 18 or 20. out gets 2 words. */
uint64_t jomankitu_nonterminal_part(const uint8_t *text, size_t text_len, uint64_t number, uint64_t *out, size_t out_len);

/* The same for the literal of a terminal, without its quotes. */
uint64_t jomankitu_terminal_part(const uint8_t *text, size_t text_len, uint64_t number, uint64_t *out, size_t out_len);

/* The width of strings whose greatest terminal is m. out gets 1 word. */
uint64_t jomankitu_width(uint64_t m, uint64_t *out, size_t out_len);

/* The string epsilon, for the greatest terminal m. out gets 2 words. */
uint64_t jomankitu_eps(uint64_t m, uint64_t *out, size_t out_len);

/* The end marker alone, for the greatest terminal m. out gets 2 words. */
uint64_t jomankitu_end(uint64_t m, uint64_t *out, size_t out_len);

/* The string of the first k of a list of terminals, for the greatest terminal m; 21 where 0 stands before the last of them. out gets 2 words. */
uint64_t jomankitu_make(const uint16_t *list, size_t list_len, uint64_t k, uint64_t m, uint64_t *out, size_t out_len);

/* A string with the terminal x behind it; 21 where it has ended. out gets 2 words. */
uint64_t jomankitu_push(uint64_t lo, uint64_t hi, uint64_t x, uint64_t *out, size_t out_len);

/* The first k slots of a string. out gets 2 words. */
uint64_t jomankitu_cut(uint64_t lo, uint64_t hi, uint64_t k, uint64_t *out, size_t out_len);

/* The string x joined with y at k. out gets 2 words. */
uint64_t jomankitu_join(uint64_t x_lo, uint64_t x_hi, uint64_t y_lo, uint64_t y_hi, uint64_t k, uint64_t *out, size_t out_len);

/* Whether a string is complete at k. out gets 1 word: 1 or 0. */
uint64_t jomankitu_complete(uint64_t lo, uint64_t hi, uint64_t k, uint64_t *out, size_t out_len);

/* The order of x and y. out gets 1 word: 0 less, 1 equal, 2 greater. */
uint64_t jomankitu_order(uint64_t x_lo, uint64_t x_hi, uint64_t y_lo, uint64_t y_hi, uint64_t *out, size_t out_len);

/* The length of a string and its slots, epsilon as 65,535, unused places 0. out gets 11 words. */
uint64_t jomankitu_unpack(uint64_t lo, uint64_t hi, uint64_t *out, size_t out_len);

/* The union of the sets a and b at k (1 to 10), in the words of out, which have room for (out_len - 1) / 2 members, 4,294,967,295 at most. told gets
   1 word: 1 if it has more members than a, else 0. */
uint64_t jomankitu_union(uint64_t k, const uint64_t *a, size_t a_len, const uint64_t *b, size_t b_len, uint64_t *out, size_t out_len,
                         uint64_t *told, size_t told_len);

/* The intersection of the sets a and b at k, in the words of out. */
uint64_t jomankitu_intersection(uint64_t k, const uint64_t *a, size_t a_len, const uint64_t *b, size_t b_len, uint64_t *out, size_t out_len);

/* Whether the sets a and b have no member in common. out gets 1 word: 1 or 0. */
uint64_t jomankitu_disjoint(uint64_t k, const uint64_t *a, size_t a_len, const uint64_t *b, size_t b_len, uint64_t *out, size_t out_len);

/* Whether the set a has a member and every member is complete at k: its count word says that nothing is unfinished. out gets 1 word: 1 or 0. */
uint64_t jomankitu_all_complete(uint64_t k, const uint64_t *a, size_t a_len, uint64_t *out, size_t out_len);

/* The join of the sets a and b at k, in the words of out: a itself where nothing of it is unfinished. */
uint64_t jomankitu_join_sets(uint64_t k, const uint64_t *a, size_t a_len, const uint64_t *b, size_t b_len, uint64_t *out, size_t out_len);

#ifdef __cplusplus
}
#endif
#endif
