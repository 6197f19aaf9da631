/* The points of a QR code, a byte each; the operation is how much of it may be lost, 0 to 3. */
#include "guest.h"
#include <qrencode.h>

GUEST(operation)
{
    size_t length;
    uint8_t *in = guest_input(&length);
    QRcode *code = QRcode_encodeData((int)length, in, 0, (QRecLevel)(operation & 3));
    if (!code)
        return -1;
    int32_t width = code->width;
    guest_put(code->data, (size_t)(width * width));
    QRcode_free(code);
    return guest_end(width);
}
