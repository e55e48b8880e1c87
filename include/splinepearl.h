/*
 * Splinepearl: may this certificate authority issue? CAA by RFC 8659 and RFC 8657, proved.
 *
 * The calls of libsplinepearl.a, for programs on x86-64 Linux (System V calling convention): four that
 * take everything at once, and four on a session, which judges one name by one lookup after the other. A
 * call takes octets, each input as a pointer and a length. It accepts any octets, checks them itself,
 * and returns one 64-bit answer:
 *
 *     bits 0 to 7     the number of the answer, one of enum caa_answer
 *     bits 8 to 31    field a
 *     bits 32 to 47   field b
 *     bits 48 to 63   field c
 *
 * The functions at the end of this file read the fields. A field that an answer doesn't use is 0. A
 * later release may use it, so don't compare whole answers. Treat a number that you don't know as
 * "don't issue".
 *
 * The caller's duties:
 *
 *   - Each pointer is valid for its length: for reading, and `buffer` for writing. It is never null,
 *     even if the length is 0.
 *   - `session` points to a whole caa_session, aligned as the compiler aligns one. It may hold any octets.
 *   - `buffer` and `session` overlap no input, so no input is a part of the session. Inputs may overlap each
 *     other.
 *   - Until the call returns, nobody writes to the inputs, and nobody else reads or writes `buffer` or
 *     `session`.
 *   - Between two calls on a session nobody writes to it. Whatever is written there, the calls stay safe, but
 *     they take it as it is: a verdict that somebody else wrote into a session is told like any other.
 *   - There is enough stack: docs/ASSUMPTIONS.md has the figures.
 *
 * A call keeps no pointer, and the library keeps no state: what a session knows is in the caa_session, and the
 * caller keeps that. Threads may call at the same time, each with its own buffer and its own session.
 * Only those octets of `buffer` change that the answer says were written; a refusal changes none. A refusal
 * changes no session either, but for one: a refused opening writes an ended session.
 */
#ifndef SPLINEPEARL_H
#define SPLINEPEARL_H

#include <stddef.h>
#include <stdint.h>

#ifdef __cplusplus
extern "C" {
#endif

/* The numbers of the answers. README.md says what to do about each. */
enum caa_answer {
    CAA_PERMITTED = 0,         /* judge_for, session calls: this issuer may issue */
    CAA_MADE = 0,              /* write_line, read_line: written to the start of buffer; a = length */

    /* Refusals: an input breaks a rule, and nothing was decided. a is 0 unless it is named here. */
    CAA_REQUEST_TOO_LONG = 1,  /* request over 16,384 octets */
    CAA_BAD_NAME = 2,          /* request empty (a = 0), or a name breaks a rule; a = number of the name.
                                  session_open: octets after one valid name (a = 1) */
    CAA_TOO_MANY_NAMES = 3,    /* octets are left after 250 valid names; a = 250 */
    CAA_BAD_ISSUER = 4,        /* issuer domain name breaks a rule */
    CAA_BOOK_TOO_LONG = 5,     /* book over 49,152 octets */
    CAA_BAD_RECORD = 6,        /* a record or its CAA or CNAME data is malformed, or a tag isn't letters and
                                  digits only; a = number of the record */
    CAA_TOO_MANY_RECORDS = 7,  /* octets are left after 1,024 valid records; a = 1,024 */
    CAA_NO_ROOM = 8,           /* buffer shorter than the output; a = octets needed */
    CAA_BAD_LINE = 9,          /* line breaks a rule */
    CAA_LINE_TOO_LONG = 10,    /* line over 16,384 octets, or data over 4,096 */
    CAA_BAD_DATA = 11,         /* CAA data is malformed, or its tag isn't letters and digits only */
    CAA_ALIAS_CONFLICT = 12,   /* an alias (CNAME record) and a CAA record, or two aliases, have the same owner;
                                  a = number of the later record */
    CAA_SESSION_ENDED = 14,    /* session_answer, session_fail: the session asks for no name; nothing changed */
    CAA_BAD_ACCOUNT_OR_METHOD = 15, /* account or method breaks a rule: see caa_judge_for */

    /* judge_for, session calls: this issuer may not issue. a = number of the first name not permitted (of a
       session 0), b = number of a record, c = labels taken off that name: see caa_labels_off */
    CAA_UNKNOWN_CRITICAL = 20, /* its tag is unknown and critical; b = the first such record */
    CAA_NOT_GRANTED = 21,      /* restricted, and not granted to this issuer for this account and method;
                                  b = the first governing record */
    CAA_TOO_MANY_ALIASES = 22, /* more than 8 aliases follow one another; b = the first of them */

    /* session calls */
    CAA_LOOKUP_FAILED = 23,    /* a lookup failed, so nothing is known: don't issue */

    /* permitted_issuers_for */
    CAA_ANYONE = 30,           /* no requested name is restricted; nothing is written */
    CAA_LIST = 31,             /* only those listed in buffer; a = octets, b = count; 0 is nobody */

    /* session calls */
    CAA_ASKS = 40,             /* look this name up next: see caa_asked_name; a = its length, b = its offset */
    CAA_NO_VERDICT = 41        /* session_state: ended without a verdict: don't issue */
};

/* Always enough: for the output of caa_read_line, and of caa_write_line. */
#define CAA_MAX_DATA_OCTETS 4096
#define CAA_MAX_LINE_OCTETS 16384

/*
 * May `issuer` issue for every name of `request`, for this account and by this validation method, by the
 * records of `book`? Don't issue unless the number is CAA_PERMITTED.
 *
 *   request   1 to 250 DNS names in wire form (RFC 1035), one after the other; not a CSR
 *   issuer    one issuer domain name of the CA, as text: no trailing dot, no zero octet, no line end
 *   account   the URI of the account that asks, as text (RFC 8657, section 3): 1 to 255 octets, each 33 to
 *             126 but no `;`. So no white space, no zero octet, no line end
 *   method    the validation method used, as text (RFC 8657, section 4), such as dns-01: the same rule, and
 *             no `,`
 *   book      0 to 1,024 resource records in wire form without compression, one after the other.
 *             Their CAA and CNAME records are the answers to the lookups; a failed lookup is not an empty
 *             answer
 *
 * Where a name, or a name above it, is an alias (has a CNAME record), the CAA records of its final target
 * count for it. Up to 8 aliases are followed. A DNAME record is not read.
 *
 * A record may limit its grant to one account (accounturi) and to some methods (validationmethods). Both
 * are compared octet for octet, so give both texts as your CA publishes them.
 *
 * Answers 0, 20 to 22, or a refusal 1 to 7, 12 or 15.
 */
uint64_t caa_judge_for(const uint8_t *request, size_t request_len, const uint8_t *issuer, size_t issuer_len,
                       const uint8_t *account, size_t account_len, const uint8_t *method, size_t method_len,
                       const uint8_t *book, size_t book_len);

/*
 * Who may issue for every name of `request`, for this account and by this method? The inputs are those of
 * caa_judge_for, without an issuer. A list is written to the start of `buffer`: each issuer domain name
 * once, as a length octet and the name in lower case. A buffer as long as the book is always enough.
 *
 * Answers 30, 31, or a refusal 1 to 3, 5 to 8, 12 or 15.
 */
uint64_t caa_permitted_issuers_for(const uint8_t *request, size_t request_len, const uint8_t *account,
                                   size_t account_len, const uint8_t *method, size_t method_len,
                                   const uint8_t *book, size_t book_len, uint8_t *buffer, size_t buffer_len);

/*
 * Writes CAA data (flags, tag length, tag, value) as a line of text, such as
 * `0 issue "ca1.example.net"`. The tag is written in lower case. No zero octet and no line end follows.
 *
 * Answers 0 with the line's length, or a refusal 8, 10 or 11.
 */
uint64_t caa_write_line(const uint8_t *data, size_t data_len, uint8_t *buffer, size_t buffer_len);

/*
 * Reads a line of text into CAA data; the tag keeps its letter case. No white space (space or tab), zero
 * octet or line end may stand before or after the line.
 *
 * Answers 0 with the data's length, or a refusal 8, 9 or 10.
 */
uint64_t caa_read_line(const uint8_t *line, size_t line_len, uint8_t *buffer, size_t buffer_len);

/*
 * A session: may `issuer` issue for one name, asked for one lookup at a time? Open it; while the answer is
 * CAA_ASKS, look up the CAA records of the asked name and hand them in, or say that the lookup failed.
 *
 *     answer = caa_session_open(&session, request, ...);
 *     while ((name = caa_asked_name(&session, answer, &length)) != NULL) {
 *         ... look it up ...
 *         answer = succeeded ? caa_session_answer(&session, book, book_len) : caa_session_fail(&session);
 *     }
 *     if (caa_number(answer) == CAA_PERMITTED) {
 *         ... issue ...
 *     }
 *
 * Suppose that no lookup failed, and that each accepted answer holds, for the asked name, what one accepted book
 * holds: the aliases that follow one another from that name, as far as a ninth, and the CAA records of the final
 * target in the same order. Then the verdict is that of caa_judge_for on that book. Only the number of the record
 * is that in the last answer. A verdict stands after at most as many accepted answers as the name has labels, its
 * star not counted. A refused book (5, 6, 7, 12) leaves the session alone: caa_session_state then still asks for
 * the same name.
 */

/* A text that a session keeps. */
struct caa_text {
    size_t length;
    uint8_t octets[256];
};

/*
 * What a session keeps: 1,088 octets. Keep it between two calls, in memory or in a file, and don't write to
 * it. caa_session_state tells what it holds. A session whose name, issuer, account, method or place breaks a
 * rule has ended and has no verdict; zeroed memory is such a session.
 */
typedef struct caa_session {
    size_t phase;              /* 1 asks, 2 has a verdict; any other has ended without one */
    size_t up;                 /* the place: labels taken off the name */
    size_t verdict, rr;        /* once there is a verdict: its number, and its record */
    struct caa_text name, issuer, account, method; /* as they were given */
} caa_session;

/*
 * Opens a session: `request` is one name in wire form, *.X or X; the other inputs are those of caa_judge_for.
 * Writes the whole session, whatever it held; on a refusal an ended one, without a verdict: all zeros.
 *
 * Answers 40, or a refusal 1, 2, 4 or 15.
 */
uint64_t caa_session_open(caa_session *session, const uint8_t *request, size_t request_len, const uint8_t *issuer,
                          size_t issuer_len, const uint8_t *account, size_t account_len, const uint8_t *method,
                          size_t method_len);

/*
 * Hands in the answer to the lookup of the asked name: its CAA records, or its aliases (CNAME records) and
 * the CAA records of the final target, in a book as that of caa_judge_for. An empty book says that there are
 * none. Other records are passed over, those of names above too.
 *
 * Answers 40, 0, 20 to 22, or a refusal 14, 5, 6, 7 or 12. 14 is checked before the book.
 */
uint64_t caa_session_answer(caa_session *session, const uint8_t *book, size_t book_len);

/*
 * Says that the lookup of the asked name failed: a timeout, SERVFAIL and the like. NXDOMAIN, and NOERROR
 * without records, are empty answers and no failures.
 *
 * Answers 23, or refusal 14.
 */
uint64_t caa_session_fail(caa_session *session);

/*
 * What the session asks for, or its verdict, as the last call told it. Changes nothing.
 *
 * Answers 40, 0, 20 to 23, or 41.
 */
uint64_t caa_session_state(const caa_session *session);

/* The number of any answer. */
static inline unsigned caa_number(uint64_t answer)
{
    return (unsigned)(answer & 0xFF);
}

/* Is it one of the refusals 1 to 12, 14 and 15? */
static inline int caa_is_refusal(uint64_t answer)
{
    const unsigned number = caa_number(answer);

    return (number >= CAA_REQUEST_TOO_LONG && number <= CAA_ALIAS_CONFLICT) || number == CAA_SESSION_ENDED
           || number == CAA_BAD_ACCOUNT_OR_METHOD;
}

/* 1 to 12, 14 and 15: field a, the number that the refusal comes with: of a name, of a record, of octets needed. */
static inline size_t caa_place(uint64_t answer)
{
    return (size_t)(answer >> 8 & 0xFFFFFF);
}

/* 20 to 22: the number of the name in the request, from 0. */
static inline size_t caa_name_number(uint64_t answer)
{
    return (size_t)(answer >> 8 & 0xFFFFFF);
}

/* 20 to 22: the number of the record in the book, from 0; of a session, in the book that was handed in last. All
   records count, not only CAA. */
static inline size_t caa_record_number(uint64_t answer)
{
    return (size_t)(answer >> 32 & 0xFFFF);
}

/*
 * 20 to 22: how many labels were taken off the name to reach the place that decided, 0 if that is the name
 * itself. A star is not a label of the name: for *.example.com it is 0 at example.com. The place is the owner
 * of the CAA records, or the name with the first alias if aliases led to them; for 22 the name whose aliases
 * are too many.
 */
static inline size_t caa_labels_off(uint64_t answer)
{
    return (size_t)(answer >> 48);
}

/*
 * 40: the name to look up next, in wire form with its closing zero octet, and its length in *length. It is the
 * end of the name that the session was opened with, in the same letter case, without its star. Returns null for
 * any other answer.
 */
static inline const uint8_t *caa_asked_name(const caa_session *session, uint64_t answer, size_t *length)
{
    const size_t offset = (size_t)(answer >> 32 & 0xFFFF);
    const size_t octets = (size_t)(answer >> 8 & 0xFFFFFF);

    if (caa_number(answer) != CAA_ASKS || offset > sizeof session->name.octets
        || octets > sizeof session->name.octets - offset) {
        return NULL;
    }
    *length = octets;
    return session->name.octets + offset;
}

/* 31: how many names are listed. */
static inline size_t caa_count(uint64_t answer)
{
    return (size_t)(answer >> 32 & 0xFFFF);
}

/* 31: how many octets of the buffer the list takes. */
static inline size_t caa_octets(uint64_t answer)
{
    return (size_t)(answer >> 8 & 0xFFFFFF);
}

/* 0 from caa_write_line and caa_read_line: how many octets were written. */
static inline size_t caa_length(uint64_t answer)
{
    return (size_t)(answer >> 8 & 0xFFFFFF);
}

/*
 * Steps through a list of `octets` octets. Returns the name at offset *at, with its length in *length,
 * and moves *at on; returns null at the end. Start with *at = 0. The name has no zero octet after it.
 */
static inline const uint8_t *caa_next_issuer(const uint8_t *list, size_t octets, size_t *at, size_t *length)
{
    const size_t entry = *at;

    if (entry >= octets || list[entry] >= octets - entry) {
        return NULL;
    }
    *length = list[entry];
    *at = entry + 1 + *length;
    return list + entry + 1;
}

#ifdef __cplusplus
}
#endif

#endif
