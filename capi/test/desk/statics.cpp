// A table that a constructor fills, before anything is called.
extern "C" {
#include "uv.h"
}

static volatile int32_t factor = 3;

struct table {
    int32_t of[64];
    table()
    {
        for (int32_t k = 0; k < 64; k++)
            of[k] = k * k * factor + 1;
    }
};
static table squares;

extern "C" UV_WORK(op)
{
    return squares.of[op & 63];
}
