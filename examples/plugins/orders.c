/* A plug-in that takes JSON and gives JSON: orders.h says what. docs/EMBEDDING.md builds it, and calls it from Python. */
#include <stdbool.h>
#include "orders.h"

static char place[1 << 17];
static const char *at, *end; /* what is not read yet */

void *room(uint32_t size) { return size <= sizeof place ? place : 0; }

static void skip_blanks(void)
{
    while (at < end && (*at == ' ' || *at == '\n' || *at == '\r' || *at == '\t'))
        at++;
}

static bool takes(char sign)
{
    skip_blanks();
    if (at == end || *at != sign)
        return false;
    at++;
    return true;
}

/* Whether `text` is next, as a name: "text": */
static bool takes_name(const char *text)
{
    skip_blanks();
    const char *from = at;
    bool same = takes('"');
    for (; same && *text; text++)
        same = at < end && *at++ == *text;
    if (same && at < end && *at++ == '"' && takes(':'))
        return true;
    at = from;
    return false;
}

/* A whole number of up to six digits: then no sum is too great for its type. */
static bool takes_number(int64_t *number)
{
    skip_blanks();
    int digits = 0;
    for (*number = 0; at < end && *at >= '0' && *at <= '9' && digits < 6; digits++)
        *number = 10 * *number + (*at++ - '0');
    return digits > 0;
}

static bool takes_item(int64_t *net)
{
    int64_t price = 0, count = 1;
    if (!takes('{'))
        return false;
    do
        if (!(takes_name("price") ? takes_number(&price) : takes_name("count") && takes_number(&count)))
            return false;
    while (takes(','));
    *net += price * count;
    return takes('}');
}

static bool takes_items(int64_t *net)
{
    if (!takes('['))
        return false;
    if (takes(']'))
        return true;
    do
        if (!takes_item(net))
            return false;
    while (takes(','));
    return takes(']');
}

static bool takes_order(int64_t *net, int64_t *percent)
{
    if (!takes('{'))
        return false;
    do
        if (!(takes_name("items") ? takes_items(net) : takes_name("tax") && takes_number(percent) && *percent <= 100))
            return false;
    while (takes(','));
    if (!takes('}'))
        return false;
    skip_blanks();
    return at == end;
}

static char *put_text(char *to, const char *text)
{
    while (*text)
        *to++ = *text++;
    return to;
}

static char *put_number(char *to, int64_t number)
{
    if (number >= 10)
        to = put_number(to, number / 10);
    *to++ = (char)('0' + number % 10);
    return to;
}

int32_t sums(const char *order, uint32_t order_size, char *into, uint32_t into_room)
{
    int64_t net = 0, percent = 0;
    char text[100], *to = text;
    at = order;
    end = order + order_size;
    if (!takes_order(&net, &percent))
        return -(int32_t)(at - order) - 1;
    int64_t tax = net * percent / 100;
    to = put_number(put_text(to, "{\"net\":"), net);
    to = put_number(put_text(to, ",\"tax\":"), tax);
    to = put_text(put_number(put_text(to, ",\"gross\":"), net + tax), "}");
    for (uint32_t i = 0; i < (uint32_t)(to - text) && i < into_room; i++)
        into[i] = text[i];
    return (int32_t)(to - text);
}
