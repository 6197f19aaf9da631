/* A guest of a loop: texts are deflated by workers, come back, are inflated by workers and compared. For each text it emits
   its length, that of the deflated one, and 1 where the inflated one is the same. */
#include "zlib.c"
#include <stdio.h>
#include <string.h>

enum { TEXTS = 8 };
static struct { char text[40000]; size_t length; int32_t first, second; } texts[TEXTS];

UV_AFTER_WORK(request, kind, code)
{
    size_t length;
    uint8_t *bytes = guest_input(&length);
    for (int i = 0; i < TEXTS; i++) {
        if (texts[i].first == request) {
            uv_emit((int64_t)texts[i].length);
            uv_emit(kind == UV_DONE ? (int64_t)length : -kind);
            texts[i].second = uv_queue_work(100, bytes, length);
        } else if (texts[i].second == request)
            uv_emit(kind == UV_DONE && length == texts[i].length && memcmp(bytes, texts[i].text, length) == 0);
    }
    free(bytes);
    (void)code;
}

UV_MAIN()
{
    for (int i = 0; i < TEXTS; i++) {
        while (texts[i].length < sizeof texts[i].text - 40)
            texts[i].length += (size_t)sprintf(texts[i].text + texts[i].length, "%d %x\n", rand() % (100 << i), i);
        texts[i].first = uv_queue_work(6, texts[i].text, texts[i].length);
    }
}
