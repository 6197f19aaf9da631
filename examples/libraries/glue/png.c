/* The points of a PNG in four bytes (0) or one (1), or what is wrong with it. */
#include "guest.h"
#include <png.h>
#include <stdlib.h>
#include <string.h>

static int32_t is_wrong(png_image *image, int32_t result)
{
    guest_put(image->message, strlen(image->message));
    return guest_end(result);
}

GUEST(operation)
{
    size_t length;
    uint8_t *in = guest_input(&length);
    png_image image;
    memset(&image, 0, sizeof image);
    image.version = PNG_IMAGE_VERSION;
    if (!png_image_begin_read_from_memory(&image, in, length))
        return is_wrong(&image, -1);
    image.format = operation ? PNG_FORMAT_GRAY : PNG_FORMAT_RGBA;
    uint8_t *points = malloc(PNG_IMAGE_SIZE(image));
    if (!png_image_finish_read(&image, NULL, points, 0, NULL))
        return is_wrong(&image, -2);
    guest_put(points, PNG_IMAGE_SIZE(image));
    return guest_end((int32_t)(image.width * 10000 + image.height));
}
