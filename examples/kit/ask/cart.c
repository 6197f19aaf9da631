/* A plug-in that asks: the price of a cart, in cents. The price of each article is the host's to know. */
#include "ask.h"

#define EXPORT(name) __attribute__((export_name(#name)))

/* The host answers the number of an article with its price, each four bytes. */
static int32_t price_of(int32_t article)
{
    int32_t price = 0;
    return ask(&article, sizeof article, &price, sizeof price) == sizeof price ? price : -1;
}

/* One of the first article, two of the second, and so on; -1 if a price is not known. */
EXPORT(total) int64_t total(int32_t articles)
{
    int64_t sum = 0;
    for (int32_t i = 0; i < articles; i++) {
        int32_t price = price_of(i);
        if (price < 0)
            return -1;
        sum += (int64_t)price * (i + 1);
    }
    return sum;
}

static int32_t known(int32_t article) { return article * 7 % 1000; }

/* The same with prices of its own: it never asks. */
EXPORT(estimate) int64_t estimate(int32_t articles)
{
    int64_t sum = 0;
    for (int32_t i = 0; i < articles; i++)
        sum += (int64_t)known(i) * (i + 1);
    return sum;
}
