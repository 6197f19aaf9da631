/* The factorial of 500 (0), the request to the power of 65537 modulo 2^521 - 1 (1), whether that is a prime (2), in decimal digits. */
#include "guest.h"
#include "tommath.h"
#include <stdlib.h>

enum { ROOM = 60000 };

static void factorial(mp_int *result)
{
    mp_set(result, 1);
    for (mp_digit i = 2; i <= 500; i++)
        mp_mul_d(result, i, result);
}

GUEST(operation)
{
    size_t length, n = 0;
    uint8_t *in = guest_input(&length);
    char *digits = malloc(ROOM);
    mp_int prime, power, base, result;
    mp_bool is_prime = MP_NO;
    mp_init_multi(&prime, &power, &base, &result, NULL);
    mp_2expt(&prime, 521);
    mp_sub_d(&prime, 1, &prime);
    mp_set(&power, 65537);
    mp_from_ubin(&base, in, length);
    switch (operation) {
    case 0: factorial(&result); break;
    case 1: mp_exptmod(&base, &power, &prime, &result); break;
    default:
        if (mp_prime_is_prime(&prime, 4, &is_prime) != MP_OKAY || !is_prime)
            return -1;
        mp_copy(&prime, &result);
    }
    mp_to_radix(&result, digits, ROOM, &n, 10);
    guest_put(digits, n);
    return guest_end((int32_t)n);
}
