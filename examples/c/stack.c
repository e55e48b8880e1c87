/*
 * Measures how much stack each call of the library takes:
 *
 *     bash scripts/archive.sh splinepearl
 *     cc -std=c99 -O2 -Iinclude -o target/stack examples/c/stack.c target/staticlib/libsplinepearl.a
 *     target/stack
 *
 * Each call runs on a stack of its own, filled with one octet before; what it changed is what it took.
 * The inputs are the longest that are accepted, one for each refusal, and 5,000 of each kind with
 * octets changed at random. The figure is the most that was seen; it isn't proved. The exit status is 1
 * if it is over what docs/ASSUMPTIONS.md says.
 */
#define _XOPEN_SOURCE 600
#include <stdio.h>
#include <stdlib.h>
#include <string.h>
#include <ucontext.h>

#include "splinepearl.h"

enum { STACK = 262144, BLOCK = 4096, MOST = 65536, CHANGED = 5000 };

/* What docs/ASSUMPTIONS.md says. */
enum { ENOUGH_FOR_LINE = 1024, ENOUGH_FOR_SESSION = 8192, ENOUGH_FOR_BOOK = 49152 };

static uint8_t stack[STACK];
static ucontext_t here, there;

/* What the call under test is given. */
struct octets {
    uint8_t at[MOST];
    size_t length;
};
static struct octets request, issuer, account, method, book, line;
static uint8_t buffer[MOST];
/* The session before a call, and the copy that the call is given. */
static caa_session before, session;

static uint64_t answer;

static void call_nothing(void) { }
static void call_judge(void)
{
    answer = caa_judge_for(request.at, request.length, issuer.at, issuer.length, account.at, account.length,
                           method.at, method.length, book.at, book.length);
}
static void call_list(void)
{
    answer = caa_permitted_issuers_for(request.at, request.length, account.at, account.length, method.at,
                                       method.length, book.at, book.length, buffer, sizeof buffer);
}
static void call_write(void) { answer = caa_write_line(line.at, line.length, buffer, sizeof buffer); }
static void call_read(void) { answer = caa_read_line(line.at, line.length, buffer, sizeof buffer); }
static void call_open(void)
{
    answer = caa_session_open(&session, request.at, request.length, issuer.at, issuer.length, account.at,
                              account.length, method.at, method.length);
}
static void call_answer(void)
{
    memcpy(&session, &before, sizeof session);
    answer = caa_session_answer(&session, book.at, book.length);
}
static void call_fail(void)
{
    memcpy(&session, &before, sizeof session);
    answer = caa_session_fail(&session);
}
static void call_state(void)
{
    memcpy(&session, &before, sizeof session);
    answer = caa_session_state(&session);
}

/* How many octets of the stack a call changes, filled with `fill` before. */
static size_t changed(void (*call)(void), int fill)
{
    uint8_t filled[BLOCK];
    size_t untouched = 0;

    memset(filled, fill, sizeof filled);
    memset(stack, fill, sizeof stack);
    if (getcontext(&there) != 0) {
        perror("stack");
        exit(2);
    }
    there.uc_stack.ss_sp = stack;
    there.uc_stack.ss_size = sizeof stack;
    there.uc_link = &here;
    makecontext(&there, call, 0);
    if (swapcontext(&here, &there) != 0) {
        perror("stack");
        exit(2);
    }
    while (untouched < sizeof stack && memcmp(stack + untouched, filled, BLOCK) == 0) {
        untouched += BLOCK;
    }
    if (untouched == 0) {
        fprintf(stderr, "stack: a call took all of it\n");
        exit(2);
    }
    while (untouched < sizeof stack && stack[untouched] == (uint8_t)fill) {
        untouched++;
    }
    return sizeof stack - untouched;
}

/* The stack that a call takes, beyond what it takes to call nothing. Two fills, since a call may write one of them. */
static size_t taken(void (*call)(void))
{
    static size_t nothing;
    size_t one, other;

    if (nothing == 0) {
        nothing = changed(call_nothing, 0xA5);
        /* the first call of all also takes what the dynamic linker needs to find memcpy */
        call();
    }
    one = changed(call, 0xA5);
    other = changed(call, 0x5A);
    return (one > other ? one : other) - nothing;
}

static void clear(struct octets *to) { to->length = 0; }
static void put(struct octets *to, const void *octets, size_t length)
{
    if (length > MOST - to->length) {
        fprintf(stderr, "stack: an input is too long\n");
        exit(2);
    }
    memcpy(to->at + to->length, octets, length);
    to->length += length;
}
static void put_octet(struct octets *to, unsigned octet)
{
    const uint8_t one = (uint8_t)octet;

    put(to, &one, 1);
}
static void put_text(struct octets *to, const char *text) { put(to, text, strlen(text)); }

/* A name in wire form, from its labels joined by dots. */
static void put_name(struct octets *to, const char *text)
{
    while (*text != '\0') {
        const size_t length = strcspn(text, ".");

        put_octet(to, (unsigned)length);
        put(to, text, length);
        text += length + (text[length] == '.');
    }
    put_octet(to, 0);
}

static void put_caa(struct octets *to, const char *owner, unsigned flags, const char *tag, const char *value)
{
    const size_t length = 2 + strlen(tag) + strlen(value);

    put_name(to, owner);
    put(to, "\1\1\0\1\0\0\0\0", 8);
    put_octet(to, (unsigned)(length >> 8));
    put_octet(to, (unsigned)(length & 0xFF));
    put_octet(to, flags);
    put_octet(to, (unsigned)strlen(tag));
    put_text(to, tag);
    put_text(to, value);
}

static void put_alias(struct octets *to, const char *owner, const char *target)
{
    struct octets data;

    clear(&data);
    put_name(&data, target);
    put_name(to, owner);
    put(to, "\0\5\0\1\0\0\0\0", 8);
    put_octet(to, (unsigned)(data.length >> 8));
    put_octet(to, (unsigned)(data.length & 0xFF));
    put(to, data.at, data.length);
}

static void put_many(struct octets *to, const char *text, int times)
{
    while (times-- > 0) {
        put_text(to, text);
    }
}

/* `count` names over `labels` labels of one letter below d.example; every second one a wildcard. */
static void make_request(int count, int labels)
{
    int i, n;

    clear(&request);
    for (n = 0; n < count; n++) {
        char name[300] = "";

        strcat(name, n % 2 == 1 ? "*." : "");
        for (i = 0; i < labels; i++) {
            strcat(name, "a.");
        }
        strcat(name, n % 3 == 0 ? "p.d.example" : "d.example");
        put_name(&request, name);
    }
}

/*
 * `count` records in turn at the owners, each pair granting an issuer of its own, with parameters behind its
 * name. Short, so that 1,024 of them fit a book.
 */
static void make_book(int count, const char *first, const char *second, const char *tag)
{
    int n;

    clear(&book);
    for (n = 0; n < count; n++) {
        char value[64];

        snprintf(value, sizeof value, " ca%d.e;a=1;b=", n / 2);
        put_caa(&book, n % 2 == 0 ? first : second, 0, tag, value);
    }
}

/*
 * `count` chains of `aliases` aliases each; the first chain begins at `owner`. The last target of each chain has
 * a CAA record that grants ca1.e.
 */
static void make_chains(int count, int aliases, const char *owner)
{
    int n, k;

    clear(&book);
    for (n = 0; n < count; n++) {
        char from[64], to[64];

        if (n == 0) {
            snprintf(to, sizeof to, "%s", owner);
        } else {
            snprintf(to, sizeof to, "t0.c%d.e", n);
        }
        for (k = 1; k <= aliases; k++) {
            memcpy(from, to, sizeof from);
            snprintf(to, sizeof to, "t%d.c%d.e", k, n);
            put_alias(&book, from, to);
        }
        put_caa(&book, to, 0, "issue", "ca1.e");
    }
}

/* An account text and a method text of `length` octets. */
static void make_applicant(int length)
{
    clear(&account);
    clear(&method);
    put_many(&account, "a", length);
    put_many(&method, "m", length);
}

/* `count` records in turn at the owners, each granting ca1.e for the account and the method alone. */
static void make_limited_book(int count, const char *first, const char *second, const char *tag)
{
    static struct octets value;
    int n;

    clear(&value);
    put_text(&value, "ca1.e;x=1;AccountURI=");
    put(&value, account.at, account.length);
    put_text(&value, ";validationmethods=dns-01,");
    put(&value, method.at, method.length);
    put_text(&value, ";y=");
    put_octet(&value, 0); /* the end of the text */
    clear(&book);
    for (n = 0; n < count; n++) {
        put_caa(&book, n % 2 == 0 ? first : second, 0, tag, (const char *)value.at);
    }
}

static uint32_t random_below(uint32_t limit)
{
    static uint64_t state = 88172645463325252u;

    state ^= state << 13;
    state ^= state >> 7;
    state ^= state << 17;
    return (uint32_t)(state >> 33) % limit;
}

static void change_some(struct octets *of)
{
    uint32_t times = 1 + random_below(3);

    while (of->length > 0 && times-- > 0) {
        of->at[random_below((uint32_t)of->length)] = (uint8_t)random_below(256);
    }
}

static size_t most_judge, most_list, most_write, most_read, most_open, most_answer, most_fail, most_state;

static void note(size_t *most, void (*call)(void))
{
    const size_t now = taken(call);

    if (now > *most) {
        *most = now;
    }
}

static void ask_book(void)
{
    note(&most_judge, call_judge);
    note(&most_list, call_list);
}

static void ask_session(void)
{
    note(&most_open, call_open);
    note(&most_answer, call_answer);
    note(&most_fail, call_fail);
    note(&most_state, call_state);
}

static void ask_line(void)
{
    note(&most_write, call_write);
    note(&most_read, call_read);
}

static void ask_changed_book(void)
{
    struct octets *const inputs[] = {&request, &account, &method, &book, &book, &book, &book, &book};
    struct octets good;
    int n;

    for (n = 0; n < CHANGED; n++) {
        struct octets *const input = inputs[n % 8];

        memcpy(&good, input, sizeof good);
        change_some(input);
        ask_book();
        memcpy(input, &good, sizeof good);
    }
}

/* Changes the request or the book of a session, or the session itself. */
static void ask_changed_session(void)
{
    struct octets *const inputs[] = {&request, &account, &book, &book};
    const caa_session good_session = before;
    struct octets good;
    int n;

    for (n = 0; n < CHANGED; n++) {
        struct octets *const input = inputs[n % 4];

        memcpy(&good, input, sizeof good);
        change_some(input);
        if (n % 2 == 0) {
            ((uint8_t *)&before)[random_below(sizeof before)] = (uint8_t)random_below(256);
        }
        ask_session();
        memcpy(input, &good, sizeof good);
        before = good_session;
    }
}

static void ask_changed_line(void)
{
    const struct octets good = line;
    int n;

    for (n = 0; n < CHANGED; n++) {
        change_some(&line);
        ask_line();
        memcpy(&line, &good, sizeof line);
    }
}

/* Fails where an input isn't what it is meant to be: `number` is the answer that it has to give. */
static void expect(void (*call)(void), unsigned number)
{
    call();
    if (caa_number(answer) != number) {
        fprintf(stderr, "stack: an input gives the answer %u and not %u\n", caa_number(answer), number);
        exit(2);
    }
}

static void books(void)
{
    static const char *const tags[] = {"issue", "issuewild"};
    int tag;

    clear(&issuer);
    put_text(&issuer, "ca1.e");
    make_applicant(255);

    /* the longest that are accepted: many names and records, deep names, many issuers listed */
    for (tag = 0; tag < 2; tag++) {
        make_request(250, 24);
        make_book(1024, "d.example", "p.d.example", tags[tag]);
        expect(call_judge, CAA_PERMITTED);
        expect(call_list, CAA_LIST);
        ask_book();
        make_book(1024, "example", "example", tags[tag]);
        ask_book();
        make_request(69, 110);
        expect(call_judge, CAA_PERMITTED);
        ask_book();
        make_book(1024, "example", "example.org", tags[tag]);
        issuer.at[2] = '9';
        ask_book();
        make_book(18, "example", "example.org", tags[tag]);
        expect(call_judge, CAA_NOT_GRANTED);
        ask_book();
        issuer.at[2] = '1';

        /* limits of an account and of methods, met and not met */
        make_request(250, 24);
        make_limited_book(80, "d.example", "p.d.example", tags[tag]);
        expect(call_judge, CAA_PERMITTED);
        expect(call_list, CAA_LIST);
        ask_book();
        account.at[254] = 'b';
        expect(call_judge, CAA_NOT_GRANTED);
        ask_book();
        account.at[254] = 'a';
        method.at[254] = 'b';
        expect(call_judge, CAA_NOT_GRANTED);
        ask_book();
        method.at[254] = 'm';
    }
    /* chains of 8 and of 9 aliases, as many as fit a book */
    make_chains(113, 8, "d.example");
    expect(call_judge, CAA_PERMITTED);
    expect(call_list, CAA_LIST);
    ask_book();
    make_chains(102, 9, "d.example");
    expect(call_judge, CAA_TOO_MANY_ALIASES);
    expect(call_list, CAA_LIST);
    ask_book();

    clear(&book);
    expect(call_judge, CAA_PERMITTED);
    expect(call_list, CAA_ANYONE);
    ask_book();
    put_caa(&book, "d.example", 128, "tbs", "Unknown");
    expect(call_judge, CAA_UNKNOWN_CRITICAL);
    ask_book();

    /* one for each refusal */
    request.at[0] = 64;
    expect(call_judge, CAA_BAD_NAME);
    ask_book();
    make_request(251, 1);
    expect(call_judge, CAA_TOO_MANY_NAMES);
    ask_book();
    request.length = 16385;
    expect(call_judge, CAA_REQUEST_TOO_LONG);
    ask_book();
    make_request(3, 3);
    put_text(&issuer, ".");
    expect(call_judge, CAA_BAD_ISSUER);
    ask_book();
    issuer.length--;
    put_text(&account, "a");
    expect(call_judge, CAA_BAD_ACCOUNT_OR_METHOD);
    expect(call_list, CAA_BAD_ACCOUNT_OR_METHOD);
    ask_book();
    account.length--;
    method.at[254] = ',';
    expect(call_judge, CAA_BAD_ACCOUNT_OR_METHOD);
    expect(call_list, CAA_BAD_ACCOUNT_OR_METHOD);
    ask_book();
    make_applicant(11);
    make_book(1025, "d.example", "example", "issue");
    expect(call_judge, CAA_TOO_MANY_RECORDS);
    ask_book();
    book.length -= 100;
    expect(call_judge, CAA_BAD_RECORD);
    ask_book();
    book.length = 49153;
    expect(call_judge, CAA_BOOK_TOO_LONG);
    ask_book();
    make_chains(113, 8, "d.example");
    put_caa(&book, "T7.c112.e", 0, "issue", "ca1.e");
    expect(call_judge, CAA_ALIAS_CONFLICT);
    expect(call_list, CAA_ALIAS_CONFLICT);
    ask_book();

    make_request(4, 3);
    make_book(8, "d.example", "p.d.example", "issue");
    ask_changed_book();
    make_limited_book(8, "d.example", "p.d.example", "issue");
    ask_changed_book();
    make_chains(2, 8, "d.example");
    ask_changed_book();
}

/* Opens the session that the next calls are given. */
static void open_session(void)
{
    call_open();
    if (caa_number(answer) != CAA_ASKS) {
        fprintf(stderr, "stack: a session can't be opened: %u\n", caa_number(answer));
        exit(2);
    }
    before = session;
}

static void sessions(void)
{
    static const char *const tags[] = {"issue", "issuewild"};
    int tag;

    clear(&issuer);
    put_text(&issuer, "ca1.e");
    make_applicant(255);

    /* one name of many labels; nothing found, at the first name and at the last, and full books */
    make_request(1, 110);
    open_session();
    clear(&book);
    expect(call_answer, CAA_ASKS);
    ask_session();
    make_book(1024, "d.example", "p.d.example", "issue");
    expect(call_answer, CAA_ASKS);
    ask_session();
    before.up = 111;
    expect(call_state, CAA_ASKS);
    make_book(1024, "example", "p.d.example", "issue");
    expect(call_answer, CAA_ASKS);
    ask_session();
    before.up = 112;
    expect(call_answer, CAA_PERMITTED);
    ask_session();
    for (tag = 0; tag < 2; tag++) {
        make_book(1024, "example", "example", tags[tag]);
        ask_session();
        make_limited_book(80, "example", "example.org", tags[tag]);
        expect(call_answer, CAA_PERMITTED);
        ask_session();
        before.account.octets[254] = 'b';
        expect(call_answer, tag == 0 ? CAA_NOT_GRANTED : CAA_PERMITTED);
        ask_session();
        before.account.octets[254] = 'a';
    }
    make_chains(113, 8, "example");
    expect(call_answer, CAA_PERMITTED);
    ask_session();
    make_chains(102, 9, "example");
    expect(call_answer, CAA_TOO_MANY_ALIASES);
    ask_session();
    clear(&book);
    put_caa(&book, "example", 128, "tbs", "Unknown");
    expect(call_answer, CAA_UNKNOWN_CRITICAL);
    ask_session();

    /* one for each refusal */
    make_book(1025, "d.example", "example", "issue");
    expect(call_answer, CAA_TOO_MANY_RECORDS);
    ask_session();
    book.length -= 100;
    expect(call_answer, CAA_BAD_RECORD);
    ask_session();
    book.length = 49153;
    expect(call_answer, CAA_BOOK_TOO_LONG);
    ask_session();
    make_chains(113, 8, "d.example");
    put_caa(&book, "T7.c112.e", 0, "issue", "ca1.e");
    expect(call_answer, CAA_ALIAS_CONFLICT);
    ask_session();
    before.up = 113;
    expect(call_answer, CAA_SESSION_ENDED);
    expect(call_fail, CAA_SESSION_ENDED);
    expect(call_state, CAA_NO_VERDICT);
    ask_session();
    make_request(2, 3);
    expect(call_open, CAA_BAD_NAME);
    ask_session();
    request.length = 16385;
    expect(call_open, CAA_REQUEST_TOO_LONG);
    ask_session();
    make_request(1, 3);
    put_text(&issuer, ".");
    expect(call_open, CAA_BAD_ISSUER);
    ask_session();
    issuer.length--;
    put_text(&account, "a");
    expect(call_open, CAA_BAD_ACCOUNT_OR_METHOD);
    ask_session();

    make_applicant(11);
    open_session();
    make_book(8, "p.d.example", "a.p.d.example", "issue");
    ask_changed_session();
    make_chains(2, 8, "a.a.a.p.d.example");
    expect(call_answer, CAA_PERMITTED);
    ask_changed_session();
}

static void lines(void)
{
    clear(&line);
    put_text(&line, "255 issue \"");
    put_many(&line, "\\255", 4000);
    put_text(&line, "\"");
    expect(call_read, CAA_MADE);
    ask_line();
    clear(&line);
    put_text(&line, "007 \t issue \t a\\ b\\;");
    expect(call_read, CAA_MADE);
    ask_line();
    ask_changed_line();
    put_text(&line, "(");
    expect(call_read, CAA_BAD_LINE);
    ask_line();
    line.length = 16385;
    expect(call_read, CAA_LINE_TOO_LONG);
    ask_line();

    clear(&line);
    put_text(&line, "\377\5ISSUE");
    put_many(&line, "\377\"\\a", 1000);
    expect(call_write, CAA_MADE);
    ask_line();
    ask_changed_line();
    line.at[1] = 0;
    expect(call_write, CAA_BAD_DATA);
    ask_line();
    line.length = 4097;
    expect(call_write, CAA_LINE_TOO_LONG);
    ask_line();
}

/* Returns 1 if a call took more than enough. */
static int tell(const char *call, size_t most, size_t enough)
{
    printf("%s: %zu octets of stack, %zu allowed\n", call, most, enough);
    return most > enough;
}

int main(int count, char **arguments)
{
    int over;

    if (count != 1) {
        fprintf(stderr, "usage: %s\n", arguments[0]);
        return 2;
    }
    books();
    lines();
    sessions();
    over = tell("caa_judge_for", most_judge, ENOUGH_FOR_BOOK);
    over |= tell("caa_permitted_issuers_for", most_list, ENOUGH_FOR_BOOK);
    over |= tell("caa_write_line", most_write, ENOUGH_FOR_LINE);
    over |= tell("caa_read_line", most_read, ENOUGH_FOR_LINE);
    over |= tell("caa_session_open", most_open, ENOUGH_FOR_SESSION);
    over |= tell("caa_session_answer", most_answer, ENOUGH_FOR_BOOK);
    over |= tell("caa_session_fail", most_fail, ENOUGH_FOR_SESSION);
    over |= tell("caa_session_state", most_state, ENOUGH_FOR_SESSION);
    return fflush(stdout) == 0 ? over : 2;
}
