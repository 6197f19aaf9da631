/* Reads XML and prints it, on one line (1) or not (0); or what is wrong with it. */
extern "C" {
#include "guest.h"
}
#include <cstring>
#include <tinyxml2.h>

extern "C" GUEST(operation)
{
    size_t length;
    char *in = reinterpret_cast<char *>(guest_input(&length));
    tinyxml2::XMLDocument document;
    if (int error = document.Parse(in, length)) {
        guest_put(document.ErrorStr(), std::strlen(document.ErrorStr()));
        return guest_end(-error);
    }
    tinyxml2::XMLPrinter printer(nullptr, operation != 0);
    document.Print(&printer);
    guest_put(printer.CStr(), std::strlen(printer.CStr()));
    return guest_end(printer.CStrSize());
}
