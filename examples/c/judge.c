/*
 * Judges request.bin, issuer.txt, account.txt, method.txt and book.bin of a folder, then says who may
 * issue:
 *
 *     bash scripts/archive.sh splinepearl
 *     cc -std=c99 -Iinclude -o target/judge examples/c/judge.c target/staticlib/libsplinepearl.a
 *     target/judge examples/whole-case
 *
 * The first line is the same as that of the desk program.
 */
#include <stdio.h>
#include <string.h>

#include "splinepearl.h"

static const char usage[] =
    "usage: judge FOLDER\n"
    "\n"
    "Judges request.bin, issuer.txt, account.txt, method.txt and book.bin in FOLDER, then says who may\n"
    "issue.\n"
    "\n"
    "Exit status: 0 permitted; 1 not permitted; 2 anything else: refused, no book, an answer that isn't\n"
    "known, output that can't be written, wrong use.\n";

enum status { PERMITTED = 0, NOT_PERMITTED = 1, NOTHING_DECIDED = 2 };

/* Over every limit of the library: a file cut off here is still refused for its length. */
#define MOST 65536

static uint8_t request[MOST], issuer[MOST], account[MOST], method[MOST], book[MOST];

/* Longer than any book, so always long enough for a list. */
static uint8_t buffer[MOST];

/* Reads a file to its end, or the first MOST octets of it. Returns 0 if it can't be opened or read. */
static int read_file(const char *folder, const char *name, uint8_t *octets, size_t *length)
{
    char path[4096];
    FILE *file;
    int whole;

    *length = 0;
    if (snprintf(path, sizeof path, "%s/%s", folder, name) >= (int)sizeof path) {
        return 0;
    }
    file = fopen(path, "rb");
    if (file == NULL) {
        return 0;
    }
    *length = fread(octets, 1, MOST, file);
    whole = !ferror(file);
    fclose(file);
    return whole;
}

/* What is left once the answers that a call gives are told. */
static void print_other(uint64_t answer)
{
    if (caa_is_refusal(answer)) {
        printf("refused %u at %zu\n", caa_number(answer), caa_place(answer));
    } else {
        printf("unknown answer %u\n", caa_number(answer));
    }
}

static enum status print_judgement(uint64_t answer)
{
    switch (caa_number(answer)) {
    case CAA_PERMITTED:
        printf("verdict 0\n");
        return PERMITTED;
    case CAA_UNKNOWN_CRITICAL:
    case CAA_NOT_GRANTED:
    case CAA_TOO_MANY_ALIASES:
        printf("verdict %u name %zu record %zu up %zu\n", caa_number(answer), caa_name_number(answer),
               caa_record_number(answer), caa_labels_off(answer));
        return NOT_PERMITTED;
    default:
        print_other(answer);
        return NOTHING_DECIDED;
    }
}

static void print_permitted_issuers(uint64_t answer)
{
    const uint8_t *name;
    size_t at = 0, length;

    switch (caa_number(answer)) {
    case CAA_ANYONE:
        printf("anyone\n");
        break;
    case CAA_LIST:
        printf("list of %zu in %zu octets\n", caa_count(answer), caa_octets(answer));
        while ((name = caa_next_issuer(buffer, caa_octets(answer), &at, &length)) != NULL) {
            printf("%.*s\n", (int)length, (const char *)name);
        }
        break;
    default:
        print_other(answer);
    }
}

static enum status judge(const char *folder)
{
    size_t request_len, issuer_len, account_len, method_len, book_len;
    enum status status;

    /* A part of a book could permit what the whole of it forbids. */
    if (!read_file(folder, "book.bin", book, &book_len)) {
        printf("no book\n");
        return NOTHING_DECIDED;
    }
    /* An empty request, issuer name, account or method is refused. */
    if (!read_file(folder, "request.bin", request, &request_len)) {
        request_len = 0;
    }
    if (!read_file(folder, "issuer.txt", issuer, &issuer_len)) {
        issuer_len = 0;
    }
    if (!read_file(folder, "account.txt", account, &account_len)) {
        account_len = 0;
    }
    if (!read_file(folder, "method.txt", method, &method_len)) {
        method_len = 0;
    }

    status = print_judgement(caa_judge_for(request, request_len, issuer, issuer_len, account, account_len,
                                           method, method_len, book, book_len));
    print_permitted_issuers(caa_permitted_issuers_for(request, request_len, account, account_len, method,
                                                      method_len, book, book_len, buffer, sizeof buffer));
    return status;
}

int main(int count, char **arguments)
{
    enum status status;

    if (count == 2 && (strcmp(arguments[1], "--help") == 0 || strcmp(arguments[1], "-h") == 0)) {
        fputs(usage, stdout);
        status = PERMITTED;
    } else if (count != 2 || arguments[1][0] == '-') {
        fputs(usage, stderr);
        return NOTHING_DECIDED;
    } else {
        status = judge(arguments[1]);
    }
    if (fflush(stdout) != 0 || ferror(stdout)) {
        fprintf(stderr, "judge: the answer could not be written\n");
        return NOTHING_DECIDED;
    }
    return status;
}
