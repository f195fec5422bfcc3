/* The proved payment gate and the book of its agent, for C on x86-64 Linux.
 *
 * Link libffi.a, which `tools/build ffi` writes to target/staticlib. No call asks anything of its caller but this: each
 * pointer is not null and valid for its count (those of the accounts for 256 places), what is lent does not overlap, and
 * `settled` is true or false. Whatever the values are, a call answers with a code of document 01; with a fault it keeps
 * every state and every lent byte. Heads, gate and book go in and come back by value: keep what came back.
 *
 * A call takes at most ROOSTERYORE_STACK bytes of stack. */
#ifndef ROOSTERYORE_H
#define ROOSTERYORE_H

#include <stdbool.h>
#include <stddef.h>
#include <stdint.h>

#ifdef __cplusplus
extern "C" {
#define ROOSTERYORE_ASSERT(holds) static_assert(holds, #holds)
#else
#define ROOSTERYORE_ASSERT(holds) _Static_assert(holds, #holds)
#endif

#define ROOSTERYORE_STACK (256 * 1024)
#define ROOSTERYORE_ROWS_MOST 4096
#define ROOSTERYORE_ACCOUNTS_MOST 256
#define ROOSTERYORE_ANSWER_ROOM 512
#define ROOSTERYORE_REPORT_ROOM 512
#define ROOSTERYORE_REQUEST_ROOM 512
#define ROOSTERYORE_REGISTRY_ROOM 65536

/* An account's number: the first `len` bytes count, 1 to 30 of them, each from ! to ~ or a
 * letter of windows-1251 (C0 to FF, A8, B8). */
typedef struct {
    uint8_t bytes[30];
    size_t len;
} roosteryore_number;

typedef struct {
    uint16_t year;
    uint8_t month;
    uint8_t day;
} roosteryore_day;

/* The balance is in kopecks. */
typedef struct {
    roosteryore_number number;
    uint64_t kind;
    int64_t balance;
} roosteryore_account;

/* The gate without its accounts: the first `count` of those that are lent are open, the first `used` records of the lent
 * table are in use. A new one is zeros but for `closed`. */
typedef struct {
    size_t count;
    roosteryore_day closed;
    size_t used;
} roosteryore_head;

/* The gate with its accounts, some 14 KB: a head with what it counts. */
typedef struct {
    roosteryore_account accounts[ROOSTERYORE_ACCOUNTS_MOST];
    size_t count;
    roosteryore_day closed;
    size_t used;
} roosteryore_gate;

/* Receipts follow `first` without a gap, the first `used` entries of the lent book are in use. A new book has none and
 * is settled. */
typedef struct {
    uint64_t first;
    size_t used;
    roosteryore_day frozen;
    bool settled;
} roosteryore_book;

/* What the calls give: a code, 0 where nothing is wrong; `size` is how many bytes of the buffer were written. */
typedef struct {
    uint64_t code;
    roosteryore_head head;
    size_t size;
} roosteryore_head_reply;

typedef struct {
    uint64_t code;
    roosteryore_gate gate;
    size_t size;
} roosteryore_reply;

typedef struct {
    uint64_t code;
    roosteryore_book book;
    uint64_t receipt;
} roosteryore_acceptance;

typedef struct {
    uint64_t code;
    roosteryore_book book;
} roosteryore_booked;

typedef struct {
    uint64_t code;
    size_t size;
} roosteryore_writing;

/* The layouts that the library has; rust/gate asserts the same. */
ROOSTERYORE_ASSERT(sizeof(roosteryore_number) == 40 && offsetof(roosteryore_number, len) == 32);
ROOSTERYORE_ASSERT(sizeof(roosteryore_day) == 4 && offsetof(roosteryore_day, month) == 2);
ROOSTERYORE_ASSERT(offsetof(roosteryore_day, day) == 3);
ROOSTERYORE_ASSERT(sizeof(roosteryore_account) == 56 && offsetof(roosteryore_account, kind) == 40);
ROOSTERYORE_ASSERT(offsetof(roosteryore_account, balance) == 48);
ROOSTERYORE_ASSERT(sizeof(roosteryore_head) == 24 && offsetof(roosteryore_head, count) == 0);
ROOSTERYORE_ASSERT(offsetof(roosteryore_head, closed) == 8 && offsetof(roosteryore_head, used) == 16);
ROOSTERYORE_ASSERT(sizeof(roosteryore_gate) == 14360 && offsetof(roosteryore_gate, count) == 14336);
ROOSTERYORE_ASSERT(offsetof(roosteryore_gate, closed) == 14344 && offsetof(roosteryore_gate, used) == 14352);
ROOSTERYORE_ASSERT(sizeof(roosteryore_book) == 24 && offsetof(roosteryore_book, used) == 8);
ROOSTERYORE_ASSERT(offsetof(roosteryore_book, frozen) == 16 && offsetof(roosteryore_book, settled) == 20);
ROOSTERYORE_ASSERT(sizeof(roosteryore_head_reply) == 40 && offsetof(roosteryore_head_reply, head) == 8);
ROOSTERYORE_ASSERT(offsetof(roosteryore_head_reply, size) == 32);
ROOSTERYORE_ASSERT(sizeof(roosteryore_reply) == 14376 && offsetof(roosteryore_reply, size) == 14368);
ROOSTERYORE_ASSERT(sizeof(roosteryore_acceptance) == 40 && offsetof(roosteryore_acceptance, receipt) == 32);
ROOSTERYORE_ASSERT(sizeof(roosteryore_booked) == 32 && offsetof(roosteryore_booked, book) == 8);
ROOSTERYORE_ASSERT(sizeof(roosteryore_writing) == 16 && offsetof(roosteryore_writing, size) == 8);

/* The lent payment table, 1 to 4,096 records in three rows of one length. `nums`: receipt, length of the number, type,
 * kopecks, state (1 done, 2 cancelled), authcode; `numbers`: the number's bytes; `dates`: of the payment, its credit
 * and its cancel (zeros while it is done). */
#define ROOSTERYORE_TABLE                                                                                              \
    uint64_t(*nums)[6], size_t nums_count, uint8_t(*numbers)[30], size_t numbers_count, uint8_t(*dates)[3][19],        \
        size_t dates_count

/* The lent book, likewise. `nums`: receipt, length of the number, type, kopecks, state (1 asked, 2 credited,
 * 3 cancel-asked, 4 cancelled, 5 unposted), authcode; `numbers`: the number's bytes; `dates`: of the payment. */
#define ROOSTERYORE_BOOK                                                                                               \
    uint64_t(*nums)[6], size_t nums_count, uint8_t(*numbers)[30], size_t numbers_count, uint8_t(*dates)[19],           \
        size_t dates_count

/* The lent accounts, in three columns of exactly 256 places each, without a count. `names`: the number's bytes; `keys`:
 * length of the number, type; `balances`: in kopecks. Names and keys are changed by an opening alone. */
#define ROOSTERYORE_ACCOUNTS uint8_t(*names)[30], uint64_t(*keys)[2], int64_t *balances

/* ---- the gate. A written date is 19 bytes, YYYY-MM-DDThh:mm:ss, without an end.
 *
 * Openings, draws and deliveries have two forms: with the accounts lent, and with the gate by value, which copies some
 * 14 KB in and back. Both give the same codes and answers, and leave the same table. */

/* Opens an account with nothing on it. */
roosteryore_head_reply roosteryore_open_account_lent(ROOSTERYORE_TABLE, ROOSTERYORE_ACCOUNTS, roosteryore_head head,
                                                     roosteryore_number number, uint64_t kind);
roosteryore_reply roosteryore_open_account(ROOSTERYORE_TABLE, roosteryore_gate gate, roosteryore_number number,
                                           uint64_t kind);

/* Draws kopecks from an account. */
roosteryore_head_reply roosteryore_draw_funds_lent(ROOSTERYORE_TABLE, ROOSTERYORE_ACCOUNTS, roosteryore_head head,
                                                   roosteryore_number number, uint64_t kind, uint64_t kopecks);
roosteryore_reply roosteryore_draw_funds(ROOSTERYORE_TABLE, roosteryore_gate gate, roosteryore_number number,
                                         uint64_t kind, uint64_t kopecks);

/* Takes a request and answers it in `out`; send the answer back whatever its code, but for 68, 50 and 51, which write
 * none. */
roosteryore_head_reply roosteryore_deliver_lent(ROOSTERYORE_TABLE, ROOSTERYORE_ACCOUNTS, roosteryore_head head,
                                                const uint8_t clock[19], const uint8_t *params, size_t params_count,
                                                uint8_t *out, size_t out_count);
roosteryore_reply roosteryore_deliver(ROOSTERYORE_TABLE, roosteryore_gate gate, const uint8_t clock[19],
                                      const uint8_t *params, size_t params_count, uint8_t *out, size_t out_count);

/* Settles a day by its registry, closes it and writes the report to `out`; a day that was closed before is only
 * reported. By value alone. */
roosteryore_reply roosteryore_settle(ROOSTERYORE_TABLE, roosteryore_gate gate, const uint8_t clock[19],
                                     roosteryore_day day, const uint8_t *bytes, size_t bytes_count, uint8_t *out,
                                     size_t out_count);

/* ---- the agent */

/* Accepts a payment and gives its receipt. */
roosteryore_acceptance roosteryore_accept(ROOSTERYORE_BOOK, roosteryore_book book, roosteryore_number number,
                                          uint64_t kind, uint64_t kopecks, const uint8_t date[19]);

/* Writes a request to `out`. */
roosteryore_writing roosteryore_write_check(ROOSTERYORE_BOOK, roosteryore_book book, roosteryore_number number,
                                            uint64_t kind, uint64_t kopecks, uint8_t *out, size_t out_count);
roosteryore_writing roosteryore_write_payment(ROOSTERYORE_BOOK, roosteryore_book book, uint64_t receipt, uint8_t *out,
                                              size_t out_count);
roosteryore_writing roosteryore_write_status(ROOSTERYORE_BOOK, roosteryore_book book, uint64_t receipt, uint8_t *out,
                                             size_t out_count);
roosteryore_writing roosteryore_write_cancel(ROOSTERYORE_BOOK, roosteryore_book book, uint64_t receipt,
                                             uint64_t reason, uint8_t *out, size_t out_count);

/* Takes the answer to a request, with that request's receipt. */
uint64_t roosteryore_take_check_answer(ROOSTERYORE_BOOK, roosteryore_book book, const uint8_t *text,
                                       size_t text_count);
uint64_t roosteryore_take_payment_answer(ROOSTERYORE_BOOK, roosteryore_book book, uint64_t receipt,
                                         const uint8_t *text, size_t text_count);
uint64_t roosteryore_take_status_answer(ROOSTERYORE_BOOK, roosteryore_book book, uint64_t receipt, const uint8_t *text,
                                        size_t text_count);
uint64_t roosteryore_take_cancel_answer(ROOSTERYORE_BOOK, roosteryore_book book, uint64_t receipt, const uint8_t *text,
                                        size_t text_count);

/* Freezes the day after the frozen one, once that one has its report. */
roosteryore_booked roosteryore_freeze(ROOSTERYORE_BOOK, roosteryore_book book, roosteryore_day day);

/* Writes the registry of a frozen day to `out`, alike each time. */
roosteryore_writing roosteryore_write_registry(ROOSTERYORE_BOOK, roosteryore_book book, roosteryore_day day,
                                               uint8_t *out, size_t out_count);

/* Takes the report of a frozen day. */
roosteryore_booked roosteryore_take_report(ROOSTERYORE_BOOK, roosteryore_book book, roosteryore_day day,
                                           const uint8_t *marks, size_t marks_count);

#ifdef __cplusplus
}
#endif

#endif
