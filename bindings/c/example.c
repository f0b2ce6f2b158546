/* Orders in an append-only log: bit k says whether order k is open. Each day is a commit.
 *
 * With the package in ~/mortarpink, in this folder:
 *
 *     cc example.c -I ~/mortarpink/include ~/mortarpink/lib/libmortarpink.a -o example && ./example */
#include <mortarpink.h>

#include <inttypes.h>
#include <stdio.h>
#include <stdlib.h>

enum { WIDTH = 8, PAGE = 4 };

/* Commits a day on which some orders are opened and one is closed. If a call fails, the day is aborted. */
static mortarpink_status add_day(mortarpink_bitmap *orders, uint64_t day, unsigned opened, uint64_t closed) {
    uint64_t previous = 0;
    mortarpink_status status = mortarpink_begin(orders);
    if (status != MORTARPINK_DONE) return status;
    for (; opened > 0 && status == MORTARPINK_DONE; opened--) status = mortarpink_push(orders, 1);
    if (status == MORTARPINK_DONE) status = mortarpink_set(orders, closed, 0);
    if (status == MORTARPINK_DONE) status = mortarpink_commit(orders, day, &previous);
    if (status != MORTARPINK_DONE) mortarpink_abort(orders);
    return status;
}

/* Prints a page of the orders that were open on a day, from one order on. Returns the first order after the page, or
 * UINT64_MAX after the last page. */
static uint64_t print_page(mortarpink_bitmap *orders, uint64_t day, uint64_t from) {
    uint64_t page[PAGE] = {0};
    size_t count = 0;
    if (mortarpink_ones_at(orders, day, from, UINT64_MAX, page, PAGE, &count) != MORTARPINK_DONE) return UINT64_MAX;
    for (size_t k = 0; k < count; k++) printf(" %" PRIu64, page[k]);
    return count == PAGE ? page[PAGE - 1] + 1 : UINT64_MAX;
}

/* Prints the orders of a day. The day is read in place: no bitmap is copied. */
static mortarpink_status print_day(mortarpink_bitmap *orders, uint64_t day) {
    uint64_t len = 0, from = 0;
    mortarpink_status status = mortarpink_len_at(orders, day, &len);
    if (status != MORTARPINK_DONE) return status;
    printf("day %" PRIu64 ": %" PRIu64 " orders, open:", day, len);
    while (from != UINT64_MAX) from = print_page(orders, day, from);
    printf("\n");
    return MORTARPINK_DONE;
}

/* Makes a log of three days, and rewinds to the second one. */
static mortarpink_status keep_log(mortarpink_bitmap *orders) {
    mortarpink_status status;
    uint64_t latest = 0;
    if ((status = add_day(orders, 1, 5, 3)) != MORTARPINK_DONE) return status;
    if ((status = add_day(orders, 2, 2, 1)) != MORTARPINK_DONE) return status;
    if ((status = add_day(orders, 3, 1, 2)) != MORTARPINK_DONE) return status;
    if ((status = print_day(orders, 3)) != MORTARPINK_DONE) return status;
    if ((status = print_day(orders, 1)) != MORTARPINK_DONE) return status;
    printf("day 3 once more: %s\n", mortarpink_status_text(add_day(orders, 3, 1, 0)));

    if ((status = mortarpink_rewind(orders, 2)) != MORTARPINK_DONE) return status;
    if ((status = mortarpink_latest(orders, &latest)) != MORTARPINK_DONE) return status;
    printf("rewound to day %" PRIu64 "\n", latest);
    printf("day 3: %s\n", mortarpink_status_text(print_day(orders, 3)));
    return print_day(orders, 2);
}

/* Encodes the current bitmap into memory that the caller frees. */
static mortarpink_status encode(mortarpink_bitmap *orders, uint8_t **bytes, size_t *size) {
    uint8_t none = 0;
    mortarpink_status status = mortarpink_encode(orders, &none, 0, size);
    if (status != MORTARPINK_WRONG_SIZE) return status;
    *bytes = calloc(*size, 1);
    if (!*bytes) return MORTARPINK_NO_MEMORY;
    return mortarpink_encode(orders, *bytes, *size, size);
}

/* Reads the bytes of a log of at most this many orders, as one that receives them would. */
static mortarpink_status receive(const uint8_t *bytes, size_t size, uint64_t most) {
    mortarpink_bitmap orders = MORTARPINK_EMPTY;
    uint64_t length = 0, open = 0;
    size_t used = 0;
    mortarpink_status status = mortarpink_read(&orders, WIDTH, 0, most, bytes, size, &used, &length);
    if (status == MORTARPINK_INVALID_LENGTH) printf("received %" PRIu64 " orders, which are too many\n", length);
    if (status != MORTARPINK_DONE) return status;
    status = mortarpink_count_ones(&orders, 0, UINT64_MAX, &open);
    if (status == MORTARPINK_DONE) printf("received %zu bytes: %" PRIu64 " orders are open\n", used, open);
    mortarpink_free(&orders);
    return status;
}

static mortarpink_status send_log(mortarpink_bitmap *orders) {
    uint8_t *bytes = NULL;
    size_t size = 0;
    mortarpink_status status = encode(orders, &bytes, &size);
    if (status == MORTARPINK_DONE) status = receive(bytes, size, 1000);
    if (status == MORTARPINK_DONE && receive(bytes, size, 4) != MORTARPINK_INVALID_LENGTH) status = MORTARPINK_INVALID;
    free(bytes);
    return status;
}

int main(void) {
    mortarpink_bitmap orders = MORTARPINK_EMPTY;
    mortarpink_status status = mortarpink_new(&orders, WIDTH);
    if (status == MORTARPINK_DONE) status = keep_log(&orders);
    if (status == MORTARPINK_DONE) status = send_log(&orders);
    if (status != MORTARPINK_DONE) fprintf(stderr, "example: %s\n", mortarpink_status_text(status));
    mortarpink_free(&orders);
    return status != MORTARPINK_DONE;
}
