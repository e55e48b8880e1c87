/*
 * Judges one name by one lookup after the other, as a resolver does it. The lookups are answered from a file
 * of text, one record or remark for each line:
 *
 *     example.com CAA 0 issue "ca1.example.net"
 *     www.example.com CNAME web.example.org
 *     example.org FAILS
 *
 * Lines that begin with # and empty lines are passed over. A name that has no line has no records.
 *
 *     bash scripts/archive.sh splinepearl
 *     cc -std=c99 -Iinclude -o target/session examples/c/session.c target/staticlib/libsplinepearl.a
 *     target/session examples/session/zone.txt www.example.com ca1.example.net
 */
#include <stdio.h>
#include <stdlib.h>
#include <string.h>

#include "splinepearl.h"

static const char usage[] =
    "usage: session FILE NAME ISSUER [ACCOUNT METHOD]\n"
    "\n"
    "Judges NAME, or *.NAME, for ISSUER by the records of FILE, one lookup after the other. Prints each\n"
    "question with its answer, then the verdict.\n"
    "\n"
    "Exit status: 0 permitted; 1 not permitted; 2 anything else: refused, a lookup that failed, an answer\n"
    "that isn't known, a file that can't be read, output that can't be written, wrong use.\n";

enum status { PERMITTED = 0, NOT_PERMITTED = 1, NOTHING_DECIDED = 2 };

/* Over the limit of a book, so that a book that is cut off here is still refused. */
enum { MOST = 65536, MOST_LINES = 4096, MOST_FIELD = 512 };

/* One line of the file. */
struct entry {
    uint8_t owner[256];
    size_t owner_len;
    int fails;
    int taken; /* into the book of this lookup */
    uint8_t record[MOST_FIELD * 2];
    size_t record_len;
};

static struct entry entries[MOST_LINES];
static size_t count;

static uint8_t book[MOST];
static size_t book_len, records;

/* A name in wire form from its dotted form; 0 if it has no room. Which names are valid is for the library. */
static size_t wire_name(const char *text, uint8_t *wire, size_t room)
{
    size_t at = 0;

    while (*text != '\0') {
        const size_t label = strcspn(text, ".");

        if (label > 63 || at + label + 2 > room) {
            return 0;
        }
        wire[at++] = (uint8_t)label;
        memcpy(wire + at, text, label);
        at += label;
        text += label + (text[label] == '.');
    }
    wire[at++] = 0;
    return at;
}

static int is_letter_case_apart(uint8_t one, uint8_t other)
{
    return (one ^ other) == 0x20 && (one | 0x20) >= 'a' && (one | 0x20) <= 'z';
}

static int same_name(const uint8_t *one, size_t one_len, const uint8_t *other, size_t other_len)
{
    size_t at;

    if (one_len != other_len) {
        return 0;
    }
    for (at = 0; at < one_len; at++) {
        if (one[at] != other[at] && !is_letter_case_apart(one[at], other[at])) {
            return 0;
        }
    }
    return 1;
}

/* Makes the record's octets: owner, type, class 1, time to live 0, data. Returns 0 if they have no room. */
static int put_record(struct entry *entry, unsigned type, const uint8_t *data, size_t data_len)
{
    const uint8_t fixed[] = {(uint8_t)(type >> 8), (uint8_t)(type & 0xFF), 0, 1, 0, 0, 0, 0,
                             (uint8_t)(data_len >> 8), (uint8_t)(data_len & 0xFF)};

    if (entry->owner_len + sizeof fixed + data_len > sizeof entry->record) {
        return 0;
    }
    memcpy(entry->record, entry->owner, entry->owner_len);
    memcpy(entry->record + entry->owner_len, fixed, sizeof fixed);
    memcpy(entry->record + entry->owner_len + sizeof fixed, data, data_len);
    entry->record_len = entry->owner_len + sizeof fixed + data_len;
    return 1;
}

/* Reads one line into the next entry. Returns 0 if it is none. */
static int read_entry(char *line)
{
    char *kind, *rest;
    uint8_t data[MOST_FIELD];
    size_t length;
    uint64_t made;
    struct entry *const entry = &entries[count];

    kind = strchr(line, ' ');
    if (kind == NULL || count == MOST_LINES) {
        return 0;
    }
    *kind++ = '\0';
    kind += strspn(kind, " ");
    rest = kind + strcspn(kind, " ");
    if (*rest != '\0') {
        *rest++ = '\0';
        rest += strspn(rest, " ");
    }
    entry->owner_len = wire_name(line, entry->owner, sizeof entry->owner);
    entry->fails = strcmp(kind, "FAILS") == 0;
    if (entry->owner_len == 0) {
        return 0;
    }
    count++;
    if (entry->fails) {
        return *rest == '\0';
    }
    if (strcmp(kind, "CNAME") == 0) {
        length = wire_name(rest, data, sizeof data);
        return length != 0 && put_record(entry, 5, data, length);
    }
    if (strcmp(kind, "CAA") == 0) {
        made = caa_read_line((const uint8_t *)rest, strlen(rest), data, sizeof data);
        return caa_number(made) == CAA_MADE && put_record(entry, 257, data, caa_length(made));
    }
    return 0;
}

static int read_file(const char *path)
{
    char line[MOST_FIELD];
    unsigned number = 0;
    FILE *const file = fopen(path, "r");

    if (file == NULL) {
        fprintf(stderr, "session: %s can't be opened\n", path);
        return 0;
    }
    while (fgets(line, sizeof line, file) != NULL) {
        const size_t end = strcspn(line, "\n");
        const int whole = line[end] == '\n' || feof(file);

        number++;
        line[end] = '\0';
        if (line[0] == '#' || (whole && line[0] == '\0')) {
            continue;
        }
        if (!whole || !read_entry(line)) {
            fprintf(stderr, "session: %s, line %u: no record\n", path, number);
            fclose(file);
            return 0;
        }
    }
    if (ferror(file)) {
        fprintf(stderr, "session: %s can't be read\n", path);
        fclose(file);
        return 0;
    }
    fclose(file);
    return 1;
}

/*
 * Puts all records of a name into the book, and those of the names that its aliases lead to, each once. Returns 0
 * if the lookup fails.
 */
static int put_records_of(const uint8_t *name, size_t length)
{
    size_t n;

    for (n = 0; n < count; n++) {
        struct entry *const entry = &entries[n];

        if (entry->taken || !same_name(entry->owner, entry->owner_len, name, length)) {
            continue;
        }
        if (entry->fails) {
            return 0;
        }
        entry->taken = 1;
        if (entry->record_len > sizeof book - book_len) {
            fprintf(stderr, "session: an answer is too long\n");
            exit(NOTHING_DECIDED);
        }
        memcpy(book + book_len, entry->record, entry->record_len);
        book_len += entry->record_len;
        records++;
        if (entry->record[entry->owner_len] == 0 && entry->record[entry->owner_len + 1] == 5) {
            const size_t at = entry->owner_len + 10;

            if (!put_records_of(entry->record + at, entry->record_len - at)) {
                return 0;
            }
        }
    }
    return 1;
}

static int look_up(const uint8_t *name, size_t length)
{
    size_t n;

    book_len = records = 0;
    for (n = 0; n < count; n++) {
        entries[n].taken = 0;
    }
    return put_records_of(name, length);
}

static void print_name(const uint8_t *name)
{
    while (*name != 0) {
        printf("%.*s%s", *name, (const char *)name + 1, name[1 + *name] == 0 ? "" : ".");
        name += 1 + *name;
    }
}

static enum status print_verdict(uint64_t answer)
{
    switch (caa_number(answer)) {
    case CAA_PERMITTED:
        printf("permitted\n");
        return PERMITTED;
    case CAA_UNKNOWN_CRITICAL:
        printf("not permitted: record %zu of the last answer is critical and not known; labels taken off: %zu\n",
               caa_record_number(answer), caa_labels_off(answer));
        return NOT_PERMITTED;
    case CAA_NOT_GRANTED:
        printf("not permitted: restricted by record %zu of the last answer; labels taken off: %zu\n",
               caa_record_number(answer), caa_labels_off(answer));
        return NOT_PERMITTED;
    case CAA_TOO_MANY_ALIASES:
        printf("not permitted: too many aliases from record %zu of the last answer on; labels taken off: %zu\n",
               caa_record_number(answer), caa_labels_off(answer));
        return NOT_PERMITTED;
    case CAA_LOOKUP_FAILED:
        printf("nothing decided: a lookup failed\n");
        return NOTHING_DECIDED;
    default:
        if (caa_is_refusal(answer)) {
            printf("refused %u at %zu\n", caa_number(answer), caa_place(answer));
        } else {
            printf("unknown answer %u\n", caa_number(answer));
        }
        return NOTHING_DECIDED;
    }
}

static enum status judge(char **arguments, int given)
{
    const char *const issuer = arguments[3];
    const char *const account = given == 6 ? arguments[4] : "none";
    const char *const method = given == 6 ? arguments[5] : "none";
    uint8_t request[300];
    caa_session session;
    const uint8_t *name;
    size_t length;
    uint64_t answer;

    if (!read_file(arguments[1])) {
        return NOTHING_DECIDED;
    }
    length = wire_name(arguments[2], request, sizeof request);
    answer = caa_session_open(&session, request, length, (const uint8_t *)issuer, strlen(issuer),
                              (const uint8_t *)account, strlen(account), (const uint8_t *)method, strlen(method));
    while ((name = caa_asked_name(&session, answer, &length)) != NULL) {
        printf("look up ");
        print_name(name);
        if (look_up(name, length)) {
            printf(": %zu record%s\n", records, records == 1 ? "" : "s");
            answer = caa_session_answer(&session, book, book_len);
        } else {
            printf(": failed\n");
            answer = caa_session_fail(&session);
        }
    }
    return print_verdict(answer);
}

int main(int given, char **arguments)
{
    enum status status;

    if (given == 2 && (strcmp(arguments[1], "--help") == 0 || strcmp(arguments[1], "-h") == 0)) {
        fputs(usage, stdout);
        status = PERMITTED;
    } else if ((given != 4 && given != 6) || arguments[1][0] == '-') {
        fputs(usage, stderr);
        return NOTHING_DECIDED;
    } else {
        status = judge(arguments, given);
    }
    if (fflush(stdout) != 0 || ferror(stdout)) {
        fprintf(stderr, "session: the answer could not be written\n");
        return NOTHING_DECIDED;
    }
    return status;
}
