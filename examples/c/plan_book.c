/* Plans a book, from a file or standard input, carries the plan out on a ledger and shows the query's person before and
 * after. With requests, ten digits each, it makes these in the plan's place and says of each what came of it. With
 * --page it lists what each person can come to hold by the roles of the query.
 *
 *     plan_book [FILE [REQUEST...]]
 *     plan_book --page [FILE]
 *     plan_book --version
 */
#include <inttypes.h>
#include <stdio.h>
#include <string.h>

#include "bixorgun.h"

/* One byte more than the longest book, so that a longer one is refused and not cut. */
static uint8_t book[BIXORGUN_BOOK_MAX + 1];
static uint8_t plan[BIXORGUN_PLAN_MAX];
static uint8_t ledger[BIXORGUN_LEDGER_SIZE];
static uint8_t table[BIXORGUN_PAGE_SIZE];

static void print_bytes(const uint8_t *bytes, size_t n)
{
    for (size_t i = 0; i < n; i++)
        printf("%02X", bytes[i]);
    putchar('\n');
}

/* A lead reads 13 and 15 in words: with 13 the rule is missing, with 15 what a rule asks for. Who writes a book with "not"
 * terms reads 16 and 17 in words: they are about the book as a whole, and their line is the query's. */
static void print_refusal(FILE *to, uint64_t answer)
{
    switch (bixorgun_refusal(answer)) {
    case BIXORGUN_NO_RULE:
        fprintf(to, "refusal 13: no rule of the book matches the request's op, role, a and v\n");
        break;
    case BIXORGUN_UNMET_TERM:
        fprintf(to, "refusal 15: rule %u of the book matches the request, but its term %u does not hold\n",
                bixorgun_rule(answer), bixorgun_term(answer));
        break;
    case BIXORGUN_BEYOND_NOT:
        fprintf(to, "refusal 16 on line %" PRIu64 ": a \"not\" term, 81 or 83, in a book with an op but 01, 03 and 05, "
                "two rules for an op, a and v, or a term but 01, 03, 81 and 83\n", bixorgun_value(answer));
        break;
    case BIXORGUN_WRONG_MODE:
        fprintf(to, "refusal 17 on line %" PRIu64 ": mode 03 without a \"not\" term, 81 or 83, or another mode with one; "
                "page of a book with one\n", bixorgun_value(answer));
        break;
    default:
        fprintf(to, "result %u, refusal %u, line %" PRIu64 "\n", bixorgun_result(answer), bixorgun_refusal(answer),
                bixorgun_value(answer));
    }
}

static int refused(const char *operation, uint64_t answer)
{
    fprintf(stderr, "%s: ", operation);
    print_refusal(stderr, answer);
    return 1;
}

static int show(size_t book_len, uint8_t person)
{
    uint8_t view[BIXORGUN_VIEW_SIZE];
    uint64_t answer = bixorgun_show(book, book_len, ledger, sizeof ledger, person, view, sizeof view);
    if (bixorgun_result(answer) != BIXORGUN_DONE)
        return refused("show", answer);
    printf("person %u: sets", person);
    for (size_t a = 0; a < 8; a++)
        printf(" %02X%02X", view[2 * a], view[2 * a + 1]);
    printf(", crews ");
    print_bytes(view + 16, 4);
    return 0;
}

/* The person is the third byte of the query, the book's last line; the book is accepted. */
static uint8_t query_person(size_t book_len)
{
    size_t at = book_len - 1;
    unsigned person;
    while (at > 0 && book[at - 1] != '\n')
        at--;
    return sscanf((const char *)book + at, "%*4c%2x", &person) == 1 ? (uint8_t)person : 0;
}

/* Reads a request from ten digits; 0 when they are not that. */
static int read_request(const char *digits, uint8_t *request)
{
    if (strlen(digits) != 2 * BIXORGUN_REQUEST_SIZE || strspn(digits, "0123456789ABCDEF") != 2 * BIXORGUN_REQUEST_SIZE)
        return 0;
    for (size_t i = 0; i < BIXORGUN_REQUEST_SIZE; i++)
        if (sscanf(digits + 2 * i, "%2" SCNx8, request + i) != 1)
            return 0;
    return 1;
}

/* Makes the caller's own requests from the starting facts. One that is refused leaves the ledger as it was. */
static int make_requests(size_t book_len, char **digits, int count)
{
    uint64_t answer = bixorgun_open(book, book_len, ledger, sizeof ledger);
    if (bixorgun_result(answer) != BIXORGUN_DONE)
        return refused("open", answer);
    for (int i = 0; i < count; i++) {
        uint8_t request[BIXORGUN_REQUEST_SIZE];
        if (!read_request(digits[i], request)) {
            fprintf(stderr, "%s: a request is ten digits, 0-9 and A-F\n", digits[i]);
            return 2;
        }
        answer = bixorgun_request(book, book_len, ledger, sizeof ledger, request, sizeof request);
        printf("request %s: ", digits[i]);
        if (bixorgun_result(answer) == BIXORGUN_DONE)
            puts("done");
        else
            print_refusal(stdout, answer);
    }
    return show(book_len, query_person(book_len));
}

static int carry_out_plan(size_t book_len)
{
    uint64_t answer = bixorgun_plan(book, book_len, plan, sizeof plan);
    if (bixorgun_result(answer) == BIXORGUN_NO_WAY) {
        puts("no way");
        return 0;
    }
    if (bixorgun_result(answer) != BIXORGUN_PLAN)
        return refused("plan", answer);
    size_t count = (size_t)bixorgun_value(answer);
    printf("plan of %zu\n", count);
    for (size_t i = 0; i < count; i++)
        print_bytes(plan + 5 * i, 5);

    answer = bixorgun_replay(book, book_len, plan, 5 * count);
    if (bixorgun_result(answer) != BIXORGUN_REACHES)
        return refused("replay", answer);
    puts("replay: reaches");

    answer = bixorgun_open(book, book_len, ledger, sizeof ledger);
    if (bixorgun_result(answer) != BIXORGUN_DONE)
        return refused("open", answer);
    uint8_t person = query_person(book_len);
    if (show(book_len, person))
        return 1;
    for (size_t i = 0; i < count; i++) {
        answer = bixorgun_request(book, book_len, ledger, sizeof ledger, plan + 5 * i, BIXORGUN_REQUEST_SIZE);
        if (bixorgun_result(answer) != BIXORGUN_DONE)
            return refused("request", answer);
    }
    return show(book_len, person);
}

/* Lists the whole depot: a line for each person and attribute with the values, or "nobody" where there is none. */
static int list_page(size_t book_len)
{
    uint64_t answer = bixorgun_page(book, book_len, table, sizeof table);
    if (bixorgun_result(answer) != BIXORGUN_DONE)
        return refused("page", answer);
    int lines = 0;
    for (unsigned person = 0; person < 64; person++) {
        for (unsigned attr = 0; attr < 8; attr++) {
            if (bixorgun_page_set(table, person, attr) == 0)
                continue;
            printf("person %u, attribute %u: values", person, attr);
            for (unsigned value = 0; value < 16; value++)
                if (bixorgun_page_has(table, person, attr, value))
                    printf(" %u", value);
            putchar('\n');
            lines++;
        }
    }
    if (lines == 0)
        puts("nobody");
    return 0;
}

int main(int argc, char **argv)
{
    if (argc > 1 && strcmp(argv[1], "--version") == 0) {
        puts(BIXORGUN_VERSION);
        return 0;
    }
    int page = argc > 1 && strcmp(argv[1], "--page") == 0;
    int at = page ? 2 : 1;
    FILE *in = argc > at ? fopen(argv[at], "rb") : stdin;
    if (!in) {
        perror(argv[at]);
        return 2;
    }
    size_t book_len = fread(book, 1, sizeof book, in);
    if (page)
        return list_page(book_len);
    return argc > 2 ? make_requests(book_len, argv + 2, argc - 2) : carry_out_plan(book_len);
}
