/* Bixorgun for C and C++: the six operations on a book, a ledger and a plan. docs/BOOK.md says how to write a book.
 *
 * Link with libbixorgun.a (x86-64). The functions keep no state, allocate nothing and write to the one lent buffer
 * alone, so any number of threads may call them at once; a buffer that one call writes is in no other call's hands
 * meanwhile. Give a thread 320 KB of stack or more (BIXORGUN_STACK). As measured with threads, plan needs 160 KB (of
 * 1,024 bytes), page 136 KB, request 84 KB and each other operation 75 KB or less; the rest is room for later versions.
 *
 * What the proofs take for granted, and a caller has to see to:
 *   - a pointer is valid for the length that follows it and is never NULL. For length 0 any non-null pointer will do;
 *   - the buffer that a call writes shares no byte with what that call reads.
 * Nothing else is asked: any characters as a book, any bytes as a ledger, a request or a plan, any lengths.
 *
 * Nothing checks these declarations against the library; they are written from its source.
 */
#ifndef BIXORGUN_H
#define BIXORGUN_H

#include <stddef.h>
#include <stdint.h>

#ifdef __cplusplus
extern "C" {
#endif

/* ---------------------------------------------------------------- version */

/* The minor rises with every later change of a format or of this interface. */
#define BIXORGUN_VERSION_MAJOR 0
#define BIXORGUN_VERSION_MINOR 6
#define BIXORGUN_VERSION_PATCH 0
#define BIXORGUN_VERSION "0.6.0"

/* ---------------------------------------------------------------- sizes, in bytes */

#define BIXORGUN_BOOK_MAX 65536 /* the characters of the longest book that is not refused */
#define BIXORGUN_LEDGER_SIZE 1792
#define BIXORGUN_REQUEST_SIZE 5
#define BIXORGUN_VIEW_SIZE 20
#define BIXORGUN_PAGE_SIZE 1024
#define BIXORGUN_PLAN_MAX 42560 /* a plan buffer that is long enough for every book */
#define BIXORGUN_STACK 327680   /* the stack that a thread is given, at least */

/* A plan buffer that is long enough for a book whose first line is 01 P G A and a count for each attribute: 10 x F, F
 * being (1 + G) x the sum of the counts, plus G. `crews` is G, and `values` the sum of the counts. */
static inline size_t bixorgun_plan_size(size_t crews, size_t values)
{
    return 10 * ((1 + crews) * values + crews);
}

/* ---------------------------------------------------------------- answers */

/* Every operation answers one number:
 *   bits 0-7    the result, one of those below;
 *   bits 8-15   the number of a refusal, 1 to 17 (0 with every other result);
 *   bits 16-63  the value: with REFUSED the line of refusals 1 to 9, 16 and 17 alone (0 for refusal 1), 0 for 10 to 14,
 *               and for 15 256 x rule + term, which bixorgun_rule and bixorgun_term take apart; with PLAN the count of
 *               requests, with STOPS the request at which replay stops, counted from 1; 0 with every other result.
 *               A value of 2^48 or more, which only replay of a plan of over 10^15 bytes could have, is given modulo 2^48.
 */
#define BIXORGUN_DONE 0       /* open, request, show, page */
#define BIXORGUN_REFUSED 1    /* all */
#define BIXORGUN_NO_WAY 2     /* plan */
#define BIXORGUN_PLAN 3       /* plan */
#define BIXORGUN_REACHES 4    /* replay */
#define BIXORGUN_STOPS 5      /* replay */
#define BIXORGUN_ENDS_SHORT 6 /* replay */
#define BIXORGUN_NO_ROOM 7    /* show */

static inline unsigned bixorgun_result(uint64_t answer)
{
    return (unsigned)(answer & 0xFF);
}

static inline unsigned bixorgun_refusal(uint64_t answer)
{
    return (unsigned)(answer >> 8 & 0xFF);
}

static inline uint64_t bixorgun_value(uint64_t answer)
{
    return answer >> 16;
}

/* The refusals. 1 to 9, 16 and 17 are those of a book and come first, in every operation: 1, then the earliest bad line,
 * and 16, 17 only where no line is bad, with the line of the query. A "not" term is one of kind 81 or 83. */
#define BIXORGUN_BOOK_TOO_LONG 1     /* over 65,536 characters */
#define BIXORGUN_BAD_LINE 2          /* an empty line, odd digits, another character, the last line unended */
#define BIXORGUN_BAD_FRAME 3         /* first frame not 01, a later 01, kind not 01-05, a frame after 05, no 05 */
#define BIXORGUN_BAD_LENGTH 4        /* not the length that the kind, with its A, n or q, gives */
#define BIXORGUN_BAD_FIELD 5         /* a field outside its range; values and sets by the count of their attribute */
#define BIXORGUN_BAD_EDGE 6          /* the junior is not the smaller number */
#define BIXORGUN_BAD_TERM 7          /* term 03, 04 or 83 in ops 01-04 (7 falls on no other kind) */
#define BIXORGUN_TOO_MANY_RULES 8    /* the 513th rule */
#define BIXORGUN_NOT_RISING 9        /* the query's attributes */
#define BIXORGUN_SHORT_PLAN_BUFFER 10 /* plan: under 10 x F bytes; page: table not 1,024 bytes */
#define BIXORGUN_BAD_LEDGER 11       /* open: not 1,792 bytes; request, show: or a bit outside the sizes, counts too */
#define BIXORGUN_BAD_REQUEST 12      /* request: not five bytes or a field out of range; show: no such person */
#define BIXORGUN_NO_RULE 13          /* request: no rule has its op, role, a and v */
#define BIXORGUN_BAD_PLAN_LENGTH 14  /* replay: no multiple of five */
#define BIXORGUN_UNMET_TERM 15       /* request: rules have its op, role, a and v; each has a term that does not hold */
#define BIXORGUN_BEYOND_NOT 16       /* a book with a "not" term: an op but 01, 03, 05, a second rule for an op, a and v
                                      * (whatever their roles), or a term but 01, 03, 81, 83 */
#define BIXORGUN_WRONG_MODE 17       /* mode 03 without a "not" term, or another with one; page: every book with one */

/* Of an answer REFUSED with 15: the place of the first rule that has the request's op, role, a and v, among all the
 * book's rules (03 frames in the book's order, repeats counted, other lines not), counted from 1: 1 to 512.
 * 0 of every other answer. */
static inline unsigned bixorgun_rule(uint64_t answer)
{
    return bixorgun_refusal(answer) == BIXORGUN_UNMET_TERM ? (unsigned)(bixorgun_value(answer) / 256) : 0;
}

/* Of an answer REFUSED with 15: the place in that rule of its first term that does not hold, counted from 1: 1 to 8.
 * 0 of every other answer. */
static inline unsigned bixorgun_term(uint64_t answer)
{
    return bixorgun_refusal(answer) == BIXORGUN_UNMET_TERM ? (unsigned)(bixorgun_value(answer) % 256) : 0;
}

/* ---------------------------------------------------------------- operations */

/* Writes the ledger of the book's starting facts over `ledger`, whose bytes are not read.
 * DONE, or REFUSED with 1-9, 16 or 17, then 11; a refusal leaves every byte of `ledger` as it was. */
uint64_t bixorgun_open(const uint8_t *book, size_t book_len, uint8_t *ledger, size_t ledger_len);

/* Carries out a request, five bytes: op role subject a v.
 * DONE: it was permitted, and its one fact is set or cleared in `ledger` (it may have been so already).
 * REFUSED with 1-9, 16 or 17, then 11, 12, then 13 or 15, both "not permitted"; a refusal leaves every byte of `ledger`
 * as it was. 13: no rule has its op, role, a and v. 15: some rules have them, and each has a term that does not hold of
 * the subject in `ledger` as it stands; bixorgun_rule and bixorgun_term of the answer tell the first such rule and its
 * first such term. */
uint64_t bixorgun_request(const uint8_t *book, size_t book_len, uint8_t *ledger, size_t ledger_len,
                          const uint8_t *request, size_t request_len);

/* Shows what a person effectively holds and is effectively in.
 * DONE: the first 20 bytes of `view` are the eight attributes' sets, two bytes each (values below the attribute's own
 * count alone, so 0 for an attribute that the book lacks), and the set of crews, four bytes; big-endian, weight 2^v for
 * number v. Bytes behind them keep their content.
 * REFUSED with 1-9, 16 or 17, then 11, 12, and, where nothing is refused, NO_ROOM for a `view` under 20 bytes: every
 * byte of `view` as it was. */
uint64_t bixorgun_show(const uint8_t *book, size_t book_len, const uint8_t *ledger, size_t ledger_len, uint8_t person,
                       uint8_t *view, size_t view_len);

/* Judges a list of requests, five bytes each, from the book's starting facts.
 * REACHES: all are made by the query's roles and permitted, and the last ledger meets the query. STOPS with k: request k is the first
 * that is ill-formed, outside the query's roles or not permitted. ENDS_SHORT: none stops, and the query is not met.
 * REFUSED with 1-9, 16 or 17, then 14. */
uint64_t bixorgun_replay(const uint8_t *book, size_t book_len, const uint8_t *plan, size_t plan_len);

/* Plans the book's query.
 * NO_WAY: no list of requests whatever by the query's roles leads to it; every byte of `out` as it was. PLAN with n: the first 5 x n
 * bytes of `out` are requests that replay answers REACHES to; bytes behind them keep their content.
 * REFUSED with 1-9, 16 or 17, then 10; a refusal leaves every byte of `out` as it was. */
uint64_t bixorgun_plan(const uint8_t *book, size_t book_len, uint8_t *out, size_t out_len);

/* Fills the page of the whole depot: what each person of the book can come to hold by the roles of the book's query.
 * DONE: all 1,024 bytes of `table` are written, whatever was there. Person p's attribute a is the set of two bytes at
 * 16 x p + 2 x a, as in a ledger: big-endian, weight 2^v for value v. A bit is set exactly when the mode 01 query for
 * that person, that value alone and the roles of the book's query would get a plan. The plan may be empty, so what the
 * person effectively holds at the start is set. Persons, attributes and values that the book lacks are 0. Of the book's
 * query the roles alone count: its mode, person, sets and crews do not matter.
 * A book with a "not" term has no page: 17, also where the other operations accept it.
 * REFUSED with 1-9, 16 or 17, then 10 for a `table` of any length but 1,024; a refusal leaves every byte of `table` as
 * it was. */
uint64_t bixorgun_page(const uint8_t *book, size_t book_len, uint8_t *table, size_t table_len);

/* Of a table that bixorgun_page has filled: the set of an attribute's values that a person can come to hold, weight 2^v
 * for value v. 0 where the book has no such person or attribute. */
static inline unsigned bixorgun_page_set(const uint8_t *table, unsigned person, unsigned attr)
{
    return person < 64 && attr < 8 ? 256U * table[16 * person + 2 * attr] + table[16 * person + 2 * attr + 1] : 0;
}

/* Of such a table: 1 where the person can come to hold the value, else 0, also where the book has no such person,
 * attribute or value. */
static inline int bixorgun_page_has(const uint8_t *table, unsigned person, unsigned attr, unsigned value)
{
    return value < 16 && (bixorgun_page_set(table, person, attr) >> value & 1) == 1;
}

#ifdef __cplusplus
}
#endif

#endif
