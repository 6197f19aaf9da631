/* A host that answers the questions of many plug-ins in one thread: while one waits, the others go on. It looks prices up late, and the
 * last question first, as a database might.
 *
 * usage: host CART.wasm CALLS ARTICLES
 */
#include <stdio.h>
#include <stdlib.h>
#include "ask_host.h"

enum { MOST_BYTES = 1 << 20, MOST_CALLS = 1000 };

typedef struct cart {
    wasmloop_handle plugin;
    uint64_t articles;
    unsigned questions;
    ask_call call;
} cart;

static size_t read_file(const char *name, uint8_t *bytes)
{
    FILE *file = fopen(name, "rb");
    if (!file) {
        perror(name);
        exit(1);
    }
    size_t length = fread(bytes, 1, MOST_BYTES, file);
    fclose(file);
    return length;
}

/* The price of the article whose number is the question; none for what is no number. */
static int answer(cart *it)
{
    uint8_t number[4];
    if (it->call.length != sizeof number)
        return ask_go_on(&it->call, NULL, ASK_NONE);
    int status = wasmloop_read(&it->plugin, it->call.question, number, sizeof number);
    if (status != WASMLOOP_OK)
        return status;
    unsigned price = (number[0] | number[1] << 8) * 7 % 1000;
    uint8_t told[4] = { (uint8_t)price, (uint8_t)(price >> 8), 0, 0 };
    it->questions++;
    return ask_go_on(&it->call, told, sizeof told);
}

static int begin(const wasmloop_handle *module, cart *it, uint64_t articles)
{
    wasmloop_call_limits limits = { 10000000, 64, 0 };
    wasmloop_ended ended;
    int status = wasmloop_instance(module, &limits, &it->plugin, &ended);
    if (status != WASMLOOP_OK)
        return status;
    it->articles = articles;
    it->call = (ask_call){ .plugin = &it->plugin, .name = "total", .args = &it->articles, .count = 1, .limits = limits };
    return ask_begin(&it->call);
}

/* Answers one question of each call that waits, until none does. */
static int serve(cart *carts, size_t count)
{
    int waits = 1, status = WASMLOOP_OK;
    while (waits) {
        waits = 0;
        for (size_t i = count; i > 0 && status == WASMLOOP_OK; i--) {
            if (!carts[i - 1].call.waits)
                continue;
            waits = 1;
            status = answer(&carts[i - 1]);
        }
        if (status != WASMLOOP_OK)
            return status;
    }
    return status;
}

/* Says why the module is rejected, or what a call returned. Returns the program's status. */
static int say(int status, const char *why, uint64_t length)
{
    if (status == WASMLOOP_REFUSED)
        fprintf(stderr, "%.*s\n", (int)length, why);
    else if (status == WASMLOOP_NONE)
        fprintf(stderr, "the module lacks the function total, or those of a plug-in that asks\n");
    else if (status != WASMLOOP_OK)
        fprintf(stderr, "%s\n", wasmloop_status_text(status));
    return status != WASMLOOP_OK;
}

int main(int argc, char **argv)
{
    static uint8_t bytes[MOST_BYTES];
    static cart carts[MOST_CALLS];
    wasmloop_handle module = WASMLOOP_HANDLE_INIT;
    wasmloop_fault fault;
    char why[1000];
    uint64_t length = 0;
    size_t count = argc == 4 ? strtoul(argv[2], NULL, 10) : 0;
    if (!count || count > MOST_CALLS) {
        fprintf(stderr, "usage: host CART.wasm CALLS ARTICLES\n");
        return 2;
    }
    int status = wasmloop_load_told(bytes, read_file(argv[1], bytes), &module, &fault, why, sizeof why, &length);
    for (size_t i = 0; i < count && status == WASMLOOP_OK; i++)
        status = begin(&module, &carts[i], strtoul(argv[3], NULL, 10) + i % 10);
    if (status == WASMLOOP_OK)
        status = serve(carts, count);
    for (size_t i = 0; i < count && status == WASMLOOP_OK; i++) {
        wasmloop_ended *ended = &carts[i].call.ended;
        if (i < 10 || ended->ending != WASMLOOP_RETURN)
            printf("%llu articles: %s %lld, %u questions\n", (unsigned long long)carts[i].articles, wasmloop_ending_name(ended->ending),
                   (long long)ended->result[0], carts[i].questions);
        wasmloop_drop(&carts[i].plugin);
    }
    wasmloop_drop(&module);
    return say(status, why, length < sizeof why ? length : sizeof why);
}
