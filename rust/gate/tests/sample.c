/* A day at both ends: a payment is accepted, sent, credited and settled, and something is drawn. Prints each code, the
 * answer, and what both ends hold of it. The accounts are lent, but for the settlement, which takes the gate by value. */
#include "roosteryore.h"

#include <stdio.h>
#include <string.h>

#define ROOM 16

static struct {
    uint64_t nums[ROOM][6];
    uint8_t numbers[ROOM][30], dates[ROOM][3][19];
} table;

static struct {
    uint8_t names[ROOSTERYORE_ACCOUNTS_MOST][30];
    uint64_t keys[ROOSTERYORE_ACCOUNTS_MOST][2];
    int64_t balances[ROOSTERYORE_ACCOUNTS_MOST];
} accounts;

static struct {
    uint64_t nums[ROOM][6];
    uint8_t numbers[ROOM][30], dates[ROOM][19];
} entries;

#define TABLE table.nums, ROOM, table.numbers, ROOM, table.dates, ROOM
#define ACCOUNTS accounts.names, accounts.keys, accounts.balances
#define BOOK entries.nums, ROOM, entries.numbers, ROOM, entries.dates, ROOM

static uint8_t near[ROOSTERYORE_REGISTRY_ROOM], far[ROOSTERYORE_ANSWER_ROOM];
static const uint8_t paid[] = "2005-09-20T15:53:00", noon[] = "2005-09-20T15:55:00", night[] = "2005-09-21T00:10:00";

/* The columns and their head as one value. */
static roosteryore_gate gate_of(roosteryore_head head) {
    roosteryore_gate gate = {.count = head.count, .closed = head.closed, .used = head.used};
    for (size_t i = 0; i < ROOSTERYORE_ACCOUNTS_MOST; i++) {
        roosteryore_account *account = &gate.accounts[i];
        memcpy(account->number.bytes, accounts.names[i], sizeof account->number.bytes);
        account->number.len = accounts.keys[i][0];
        account->kind = accounts.keys[i][1];
        account->balance = accounts.balances[i];
    }
    return gate;
}

/* Puts back what a settlement changes: balances and head. */
static roosteryore_head put_back(const roosteryore_gate *gate) {
    for (size_t i = 0; i < ROOSTERYORE_ACCOUNTS_MOST; i++)
        accounts.balances[i] = gate->accounts[i].balance;
    return (roosteryore_head){.count = gate->count, .closed = gate->closed, .used = gate->used};
}

int main(void) {
    const roosteryore_day yesterday = {2005, 9, 19}, today = {2005, 9, 20};
    roosteryore_number choir = {.len = 9};
    memcpy(choir.bytes, "account12", 9);
    roosteryore_head head = {.closed = yesterday};
    roosteryore_book book = {.first = 987654321, .frozen = yesterday, .settled = true};

    roosteryore_head_reply reply = roosteryore_open_account_lent(TABLE, ACCOUNTS, head, choir, 1);
    printf("open %d\n", (int)reply.code);
    roosteryore_acceptance accepted = roosteryore_accept(BOOK, book, choir, 1, 1012, paid);
    printf("accept %d, receipt %llu\n", (int)accepted.code, (unsigned long long)accepted.receipt);

    roosteryore_writing request = roosteryore_write_payment(BOOK, accepted.book, accepted.receipt, near, sizeof near);
    reply = roosteryore_deliver_lent(TABLE, ACCOUNTS, reply.head, noon, near, request.size, far, sizeof far);
    printf("deliver %d, %.*s\n", (int)reply.code, (int)reply.size, (const char *)far);
    printf("answer %d\n", (int)roosteryore_take_payment_answer(BOOK, accepted.book, accepted.receipt, far, reply.size));

    roosteryore_booked frozen = roosteryore_freeze(BOOK, accepted.book, today);
    roosteryore_writing registry = roosteryore_write_registry(BOOK, frozen.book, today, near, sizeof near);
    roosteryore_reply settled =
        roosteryore_settle(TABLE, gate_of(reply.head), night, today, near, registry.size, far, sizeof far);
    head = put_back(&settled.gate);
    printf("settle %d, %.*s\n", (int)settled.code, (int)settled.size, (const char *)far);
    roosteryore_booked reported = roosteryore_take_report(BOOK, frozen.book, today, far, settled.size);
    printf("report %d, settled %d, state %d, balance %lld\n", (int)reported.code, reported.book.settled,
           (int)entries.nums[0][4], (long long)accounts.balances[0]);

    reply = roosteryore_draw_funds_lent(TABLE, ACCOUNTS, head, choir, 1, 12);
    printf("draw %d, closed %d, balance %lld\n", (int)reply.code, reply.head.closed.day,
           (long long)accounts.balances[0]);
    return 0;
}
