/*
 * CAA data as lines of text and back, by the library. For each line of standard input, one line out:
 *
 *     caa-lines write    CAA data in hex to its line of text, or `refused N at P`
 *     caa-lines read     a line of text to its CAA data in hex, or `refused N at P`
 *
 *     cc -std=c99 -Iinclude -o caa-lines tools/caa-lines.c target/staticlib/libsplinepearl.a
 */
#include <stdio.h>
#include <string.h>

#include "splinepearl.h"

/* Over twice the limit of a line: what is cut here is refused for its length all the same. */
#define MOST 65536

static uint8_t input[MOST], output[CAA_MAX_LINE_OCTETS];

/* Reads to the next line end, which isn't kept. Returns 0 at the end of the input. */
static int next_line(size_t *length)
{
    int c = getchar();

    *length = 0;
    if (c == EOF) {
        return 0;
    }
    for (; c != '\n' && c != EOF; c = getchar()) {
        if (*length < MOST) {
            input[(*length)++] = (uint8_t)c;
        }
    }
    return 1;
}

static int hex_digit(uint8_t c)
{
    static const char digits[] = "0123456789abcdef";
    const char *at = memchr(digits, c >= 'A' && c <= 'F' ? c + ('a' - 'A') : c, 16);

    return at == NULL ? -1 : (int)(at - digits);
}

/* Pairs of hex digits to octets, in place. Returns 0 where the input is something else. */
static int from_hex(size_t *length)
{
    size_t i;

    if (*length % 2 != 0) {
        return 0;
    }
    *length /= 2;
    for (i = 0; i < *length; i++) {
        int high = hex_digit(input[2 * i]), low = hex_digit(input[2 * i + 1]);

        if (high < 0 || low < 0) {
            return 0;
        }
        input[i] = (uint8_t)(high * 16 + low);
    }
    return 1;
}

static void print_output(uint64_t answer, const char *format)
{
    size_t i;

    if (caa_number(answer) != CAA_MADE) {
        printf("refused %u at %zu\n", caa_number(answer), caa_place(answer));
        return;
    }
    for (i = 0; i < caa_length(answer); i++) {
        printf(format, output[i]);
    }
    putchar('\n');
}

int main(int count, char **arguments)
{
    int writes = count == 2 && strcmp(arguments[1], "write") == 0;
    size_t length;

    if (!writes && !(count == 2 && strcmp(arguments[1], "read") == 0)) {
        fprintf(stderr, "usage: caa-lines write | read\n");
        return 2;
    }
    while (next_line(&length)) {
        if (!writes) {
            print_output(caa_read_line(input, length, output, sizeof output), "%02X");
        } else if (from_hex(&length)) {
            print_output(caa_write_line(input, length, output, sizeof output), "%c");
        } else {
            fprintf(stderr, "caa-lines: no pairs of hex digits\n");
            return 2;
        }
    }
    return 0;
}
