#include "uv.h"

static char text[65536];

static int expression(const char *p, int n, int *at);

static int atom(const char *p, int n, int *at)
{
    int value = 0;
    if (*at < n && p[*at] == '(') {
        ++*at;
        value = expression(p, n, at);
        ++*at;
        return value;
    }
    while (*at < n && p[*at] >= '0' && p[*at] <= '9')
        value = value * 10 + p[(*at)++] - '0';
    return value;
}

static int expression(const char *p, int n, int *at)
{
    int left = atom(p, n, at);
    while (*at < n && (p[*at] == '+' || p[*at] == '/')) {
        char sign = p[(*at)++];
        int right = atom(p, n, at);
        left = sign == '+' ? left + right
                           : left / right;
    }
    return left;
}

UV_WORK(operation)
{
    int n = uv_in_len(), at = 0;
    uv_in_copy(text, 0, n);
    return expression(text, n, &at);
}
