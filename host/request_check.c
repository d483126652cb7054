/*
 * Reads packets from standard input, one a line, as pairs of hexadecimal
 * digits; blanks are skipped, and a line is read up to a '#'. A line without
 * digits is a packet of no octets.
 *
 * Writes a line for each: the check field over all octets but the last two (over
 * none where there are fewer than two), and then what the request check finds:
 * `passed`, or the failure's code, A and B.
 */
#define _POSIX_C_SOURCE 200809L

#include "melonskeg.h"

#include <ctype.h>
#include <stdio.h>
#include <stdlib.h>

static int digit(char c) {
    if (c >= '0' && c <= '9') {
        return c - '0';
    }
    c = (char)toupper((unsigned char)c);
    return c >= 'A' && c <= 'F' ? c - 'A' + 10 : -1;
}

/*
 * Turns a line into octets, in place: an octet has two digits, so none is
 * written before its digits are read. Answers their number, or -1.
 */
static ssize_t octets_of(char *line) {
    uint8_t *octets = (uint8_t *)line;
    ssize_t n = 0;
    for (char *at = line; *at != '\0' && *at != '#'; at++) {
        if (isspace((unsigned char)*at)) {
            continue;
        }
        int upper = digit(at[0]);
        int lower = upper < 0 ? -1 : digit(at[1]);
        if (lower < 0) {
            return -1;
        }
        octets[n++] = (uint8_t)(upper * 16 + lower);
        at++;
    }
    return n;
}

int main(void) {
    char *line = NULL;
    size_t room = 0;
    for (unsigned long number = 1; getline(&line, &room, stdin) != -1; number++) {
        ssize_t n = octets_of(line);
        if (n < 0) {
            fprintf(stderr, "request_check: line %lu is not in pairs of hexadecimal digits\n", number);
            free(line);
            return 2;
        }
        const uint8_t *octets = (const uint8_t *)line;
        size_t length = (size_t)n;
        printf("%04X ", melonskeg_check_field(octets, length < 2 ? 0 : length - 2));
        struct melonskeg_request_check found = melonskeg_request_check(octets, length);
        if (found.code == MELONSKEG_PASSED) {
            puts("passed");
        } else {
            printf("%u %u %u\n", found.code, found.a, found.b);
        }
    }
    free(line);
    if (ferror(stdin) || fflush(stdout) != 0) {
        perror("request_check");
        return 2;
    }
    return 0;
}
