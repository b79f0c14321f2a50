/* cpe.h: names of CPE 2.3 in other forms, how two names relate, and sessions that are given their lines one by one.
 *
 * A text is bytes and their number; no byte ends it, and it may have any. A text of no bytes may be NULL. Where a call answers a
 * text, it writes it into `out`, which has room for `size` bytes, and puts no byte after it; `number` then has its length. Where
 * `out` is too small the call writes nothing there and answers CPE_SHORT, and `number` has the length that is needed; so a call
 * with a size of 0 asks for the length. What stands in `out` after the text, or where another code is answered, is not promised.
 * `number` may be NULL; it is 0 where nothing below says what it is. */
#ifndef CPE_H
#define CPE_H

#include <stddef.h>

#ifdef __cplusplus
extern "C" {
#endif

/* What a call answers. */
enum {
    CPE_DONE = 0,           /* it was done */
    CPE_SHORT = 1,          /* `out` is too small; `number` is the length that is needed */
    CPE_REFUSED = 2,        /* no name has the text, or the first of two; `number` is the place */
    CPE_TARGET_REFUSED = 3, /* no name has the second text; `number` is the place */
    CPE_MEMORY = 4,         /* memory ran out */
    CPE_NO_COMMAND = 5,     /* the words name no command that answers lines */
    CPE_NOT_A_LINE = 6,     /* the line has a newline in it */
    CPE_OVER = 7,           /* the session ended, or memory ran out in it */
    CPE_MISUSE = 8          /* a pointer is NULL that may not be, a size is more than PTRDIFF_MAX, or `out` and a text overlap */
};

/* Writes the text of the well-formed name that has this formatted string or URI, as `cpe unbind` does. */
int cpe_unbind(const char *text, size_t length, char *out, size_t size, size_t *number);

/* Writes the formatted string, or the canonical URI, of the well-formed name that has this text, as `cpe bind fs` and `cpe bind
 * uri` do. A text of no name has no place; `number` is then 0. */
int cpe_bind_fs(const char *text, size_t length, char *out, size_t size, size_t *number);
int cpe_bind_uri(const char *text, size_t length, char *out, size_t size, size_t *number);

/* How a source relates to a target. */
enum { CPE_DISJOINT = 0, CPE_EQUAL = 1, CPE_SUBSET = 2, CPE_SUPERSET = 3, CPE_UNDEFINED = 4 };

/* The relation of two names, and those of their attributes. */
struct cpe_relations {
    unsigned char whole, part, vendor, product, version, update, edition, language, sw_edition, target_sw, target_hw, other;
};

/* Tells how two names relate, formatted strings or URIs, as `cpe compare` does. After any code but CPE_DONE `relations` are as they
 * were. */
int cpe_relate(const char *source, size_t source_length, const char *target, size_t target_length,
    struct cpe_relations *relations, size_t *number);

/* Tells whether the first name covers the second (each attribute is SUPERSET or EQUAL): `covers` is 1 where it does, and 0 where it
 * doesn't. After any code but CPE_DONE it is as it was. */
int cpe_covers(const char *source, size_t source_length, const char *target, size_t target_length,
    int *covers, size_t *number);

/* A session of a command, whose lines are given one by one. It answers for each line the bytes that the program would write for
 * it, and at the end those that stand at the end; one after the other they are the program's output. It is used by one call at
 * a time, in the thread that opened it. */
typedef struct cpe_session cpe_session;

/* Opens a session of the command with this word, as "watch", or with two, as "bind" and "fs"; `second` is NULL, or empty, where
 * there is one alone. Words end at their first zero byte. Where no session is opened, `session` has NULL. */
int cpe_session_open(const char *word, const char *second, cpe_session **session);

/* Answers the next line, which is given without its newline. An answer that doesn't fit is kept: the line counts as given, and
 * cpe_session_answer gives the answer. After CPE_NOT_A_LINE and CPE_MISUSE the session is as it was; after CPE_MEMORY it answers
 * CPE_OVER alone. */
int cpe_session_line(cpe_session *session, const char *line, size_t length, char *out, size_t size, size_t *number);

/* Ends the session: answers what stands at the end, and `status` has the exit status of the program, 0, or 1 where a line was
 * refused. An answer that doesn't fit is kept, as that of a line; `status` is told with it. After that, and after CPE_MEMORY, the
 * session takes no line and no other end. `status` may be NULL; after any code but CPE_DONE and CPE_SHORT it is as it was. */
int cpe_session_end(cpe_session *session, char *out, size_t size, size_t *number, int *status);

/* Gives the last answer again, that of the end too; before the first line it is a text of no bytes. */
int cpe_session_answer(cpe_session *session, char *out, size_t size, size_t *number);

/* Lets the session go. NULL is let go too. */
void cpe_session_close(cpe_session *session);

#ifdef __cplusplus
}
#endif
#endif
