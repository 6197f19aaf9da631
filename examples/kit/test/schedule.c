/* Starts a timer for each number of its configuration, which fill.py lays into the module, and tells when each is due. */
#include "uv.h"

uint8_t config[64];
uint32_t config_length;
const uint32_t config_room = sizeof config;

static void on_due(int32_t timer)
{
    uv_emit(timer);
    uv_emit((int64_t)uv_now());
}

UV_MAIN()
{
    uint64_t ms = 0;
    int digits = 0;
    for (uint32_t i = 0; i <= config_length; i++) {
        uint8_t c = i < config_length ? config[i] : ' ';
        if (c >= '0' && c <= '9') {
            ms = ms * 10 + (c - '0');
            digits++;
        } else if (digits) {
            uv_timer_start(uv_timer_init(), on_due, ms, 0);
            ms = digits = 0;
        }
    }
}
