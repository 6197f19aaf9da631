/* Operation 0: compress. Otherwise: decompress. */
extern "C" {
#include "guest.h"
}
#include <snappy.h>
#include <string>

extern "C" GUEST(operation)
{
    size_t length;
    char *in = reinterpret_cast<char *>(guest_input(&length));
    std::string out;
    if (operation == 0)
        snappy::Compress(in, length, &out);
    else if (!snappy::Uncompress(in, length, &out))
        return guest_end(-1);
    guest_put(out.data(), out.size());
    return guest_end(static_cast<int32_t>(out.size()));
}
