/* A guest that could ask, and never does where it knows all prices: a machine whose instructions are interpreted, of which one asks, and a sort
 * by a function that asks for what it does not know. */
#include "ask.h"

#define EXPORT(name) __attribute__((export_name(#name)))

enum { ARTICLES = 512 };

static int32_t known[ARTICLES];

__attribute__((noinline)) static int32_t price_of(int32_t article)
{
    int32_t price = known[article % ARTICLES];
    if (!price && ask(&article, sizeof article, &price, sizeof price) != sizeof price)
        return -1;
    return price;
}

EXPORT(know) void know(int32_t articles)
{
    for (int32_t i = 0; i < articles; i++)
        known[i % ARTICLES] = i * 7 % 1000 + 1;
}

typedef enum operation { ADD, XOR, SHIFT, COUNT, AGAIN, PRICE, STOP } operation;

/* Runs a program of one loop; with `prices`, each time around looks up a price. */
EXPORT(machine) int64_t machine(int32_t times, int32_t prices)
{
    static const uint8_t with[] = { ADD, XOR, SHIFT, ADD, PRICE, COUNT, AGAIN, STOP }, without[] = { ADD, XOR, SHIFT, ADD, COUNT, AGAIN, STOP };
    const uint8_t *program = prices ? with : without, *at = program;
    int64_t it = 1, other = 12345;
    for (int32_t left = times;;)
        switch (*at++) {
        case ADD: it += other; break;
        case XOR: other ^= it >> 3; break;
        case SHIFT: it = it << 1 | (it >> 63 & 1); break;
        case COUNT: left--; break;
        case AGAIN: at = left > 0 ? program : at; break;
        case PRICE: it += price_of(left); break;
        default: return it;
        }
}

typedef int32_t order(int32_t one, int32_t other);

static int32_t by_price(int32_t one, int32_t other) { return price_of(one) - price_of(other); }
static int32_t by_number(int32_t one, int32_t other) { return one - other; }

/* Sorts articles; returns a sum that says in what order. */
EXPORT(sorted) int64_t sorted(int32_t prices)
{
    static order *const orders[] = { by_number, by_price };
    static int32_t articles[ARTICLES];
    int64_t sum = 0;
    for (int32_t i = 0; i < ARTICLES; i++) {
        int32_t article = i * 37 % ARTICLES, at = i;
        for (; at > 0 && orders[prices & 1](article, articles[at - 1]) < 0; at--)
            articles[at] = articles[at - 1];
        articles[at] = article;
    }
    for (int32_t i = 0; i < ARTICLES; i++)
        sum = sum * 31 + articles[i];
    return sum;
}
