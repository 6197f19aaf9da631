/* Operation 0: the points of a GIF's pictures. Otherwise: the bytes as the points of a GIF that is 200 wide. */
#include "guest.h"
#include <gif_lib.h>
#include <string.h>

enum { WIDTH = 200 };

static uint8_t *at, *end;

static int from_request(GifFileType *file, GifByteType *to, int length)
{
    (void)file;
    if (length > end - at)
        length = (int)(end - at);
    memcpy(to, at, (size_t)length);
    at += length;
    return length;
}

static int to_reply(GifFileType *file, const GifByteType *bytes, int length)
{
    (void)file;
    guest_put(bytes, (size_t)length);
    return length;
}

static int32_t unpacked(size_t length)
{
    int error = 0;
    end = at + length;
    GifFileType *file = DGifOpen(NULL, from_request, &error);
    if (!file)
        return -error;
    if (DGifSlurp(file) != GIF_OK)
        return guest_end(-file->Error);
    for (int i = 0; i < file->ImageCount; i++) {
        GifImageDesc *size = &file->SavedImages[i].ImageDesc;
        guest_put(file->SavedImages[i].RasterBits, (size_t)(size->Width * size->Height));
    }
    return guest_end(file->ImageCount);
}

static int32_t packed(size_t length)
{
    int error = 0, height = (int)(length / WIDTH);
    GifFileType *file = EGifOpen(NULL, to_reply, &error);
    if (!file)
        return -error;
    ColorMapObject *colours = GifMakeMapObject(256, NULL);
    for (int i = 0; i < 256; i++)
        colours->Colors[i] = (GifColorType){ (GifByteType)i, (GifByteType)(255 - i), (GifByteType)(i * 7) };
    EGifPutScreenDesc(file, WIDTH, height, 8, 0, colours);
    EGifPutImageDesc(file, 0, 0, WIDTH, height, 0, NULL);
    for (int y = 0; y < height; y++)
        EGifPutLine(file, at + y * WIDTH, WIDTH);
    EGifCloseFile(file, &error);
    return guest_end(height);
}

GUEST(operation)
{
    size_t length;
    at = guest_input(&length);
    return operation == 0 ? unpacked(length) : packed(length);
}
