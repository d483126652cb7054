/*
 * The functions of the crate `exports`, for C.
 *
 * Nothing checks this header against the crate: whoever changes one has to
 * change the other. What each function answers is proved in Rattle, for any
 * octets; what the caller owes below is not checked by anything.
 *
 * A slice of octets is a pointer and then a length. The pointer is to `length`
 * octets that can be read and that nobody writes during the call. It is never
 * NULL, not even where the length is 0.
 */
#ifndef MELONSKEG_H
#define MELONSKEG_H

#include <stddef.h>
#include <stdint.h>

/* The code of a request that passes. */
#define MELONSKEG_PASSED 65535

/* A failure's code with its A and B, or MELONSKEG_PASSED with zeros. */
struct melonskeg_request_check {
    uint16_t code;
    uint16_t a;
    uint16_t b;
};

/* The check field of the octets. */
uint16_t melonskeg_check_field(const uint8_t *octets, size_t length);

/* All that is asked of a request, except whether the report area has room. */
struct melonskeg_request_check melonskeg_request_check(const uint8_t *octets, size_t length);

#endif
