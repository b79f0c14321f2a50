/* Refuses each allocation of the library in turn, alone, and then all behind it too. The linker puts what stands here in the place of
 * malloc and its like (--wrap). Each call has to do what it does with all memory, or to answer CPE_MEMORY, after which a session
 * answers CPE_OVER alone. It writes what is wrong, and its status is 0 where nothing is. */
#include <stdio.h>
#include <stdlib.h>
#include <string.h>

#include "cpe.h"

static int wrong;

#define IS(it) do { if (!(it)) { wrong++; printf("%s:%d: %s\n", __FILE__, __LINE__, #it); } } while (0)

#define TEXT(text) (text), strlen(text)

void *__real_malloc(size_t size);
void *__real_calloc(size_t count, size_t size);
void *__real_realloc(void *block, size_t size);

/* Allocations are counted from 1; that of this number is refused, and those after it where all are. */
static unsigned long seen, first, refused;
static int all;

static int is_refused(void) {
    seen++;
    if (!first || (all ? seen < first : seen != first)) return 0;
    refused++;
    return 1;
}

void *__wrap_malloc(size_t size) { return is_refused() ? NULL : __real_malloc(size); }
void *__wrap_calloc(size_t count, size_t size) { return is_refused() ? NULL : __real_calloc(count, size); }
void *__wrap_realloc(void *block, size_t size) { return is_refused() ? NULL : __real_realloc(block, size); }

/* A name whose values don't stand in its text as they are, so it takes memory to compare it. */
static const char packed[] = "cpe:/a:v:p:1:-:~e~~s~t%21~w";
static const char plain[] = "cpe:2.3:a:v:p:1:*:*:*:*:*:*:*";

static char room[1 << 16];

/* Forms and pairs: 1 where memory ran out in one of them. */
static int try_names(void) {
    struct cpe_relations before, found;
    size_t number = 9;
    int covers = 7, code = cpe_unbind(TEXT(plain), room, 8, &number), ran_out = code == CPE_MEMORY;
    IS(ran_out ? number == 0 : code == CPE_SHORT && number > 8);
    memset(&before, 77, sizeof before);
    found = before;
    code = cpe_relate(TEXT(packed), TEXT(packed), &found, &number);
    IS(code == CPE_MEMORY ? !memcmp(&found, &before, sizeof found) && number == 0 : code == CPE_DONE && found.whole == CPE_EQUAL);
    ran_out |= code == CPE_MEMORY;
    code = cpe_covers(TEXT(plain), TEXT(packed), &covers, &number);
    IS(code == CPE_MEMORY ? covers == 7 && number == 0 : code == CPE_DONE && covers == 1);
    return ran_out | (code == CPE_MEMORY);
}

static const char *const lines[] = {
    "{\"do\":\"statement\",\"id\":\"tls\",\"mode\":\"follow\",\"test\":{\"op\":\"OR\",\"of\":[{\"fact\":\"cpe:/a:gnu:gnutls\"}]}}",
    "{\"do\":\"entry\",\"name\":\"cpe:/a:gnu:gnutls:3.8.0\",\"title\":\"GnuTLS\"}",
    "{\"do\":\"item\",\"name\":\"cpe:/a:gnu:gnutls:3.8.0\"}",
    "{\"do\":\"item\",\"name\":\"cpe:/a:gnu:gnutls:3.8.0\"}",
    "{\"do\":\"drop-item\",\"name\":\"cpe:/a:gnu:gnutls:3.8.0\"}",
};
static const char *const answers[] = {
    "changed 1 tls none FALSE\n", "", "changed 3 tls FALSE TRUE\n", "refused 4 exists\n", "changed 5 tls TRUE FALSE\n",
};
enum { LINES = sizeof lines / sizeof *lines };

/* A session in which memory ran out answers nothing any more, and that alone. */
static void is_over(cpe_session *session) {
    size_t number = 9;
    int status = 9;
    IS(cpe_session_line(session, TEXT(lines[0]), room, sizeof room, &number) == CPE_OVER && number == 0);
    IS(cpe_session_answer(session, room, sizeof room, &number) == CPE_OVER);
    IS(cpe_session_end(session, room, sizeof room, &number, &status) == CPE_OVER && status == 9);
}

/* A session of watch: 1 where memory ran out in it. */
static int try_session(void) {
    cpe_session *session = (cpe_session *)room;
    size_t number = 0;
    int status = 9, code = cpe_session_open("watch", NULL, &session);
    if (code == CPE_MEMORY) {
        IS(!session);
        return 1;
    }
    IS(code == CPE_DONE && session);
    for (int at = 0; code == CPE_DONE && at < LINES; at++) {
        code = cpe_session_line(session, TEXT(lines[at]), room, sizeof room, &number);
        IS(code == CPE_MEMORY ? number == 0 : code == CPE_DONE && number == strlen(answers[at]) && !memcmp(room, answers[at], number));
    }
    if (code == CPE_DONE) {
        code = cpe_session_end(session, room, sizeof room, &number, &status);
        IS(code == CPE_MEMORY ? status == 9 : code == CPE_DONE && number == 0 && status == 1);
    }
    if (code == CPE_MEMORY) is_over(session);
    cpe_session_close(session);
    return code == CPE_MEMORY;
}

/* What is tried with all memory, and then with each allocation refused, by which memory has to run out somewhere. */
static void refuse_each(int (*tried)(void)) {
    seen = first = 0;
    IS(tried() == 0);
    unsigned long count = seen, ran_out = 0;
    IS(count > 0);
    for (all = 0; all < 2; all++) {
        for (unsigned long at = 1; at <= count; at++) {
            seen = refused = 0;
            first = at;
            ran_out += (unsigned long)tried();
            IS(refused >= 1);
        }
    }
    IS(ran_out > 0);
}

int main(void) {
    refuse_each(try_names);
    refuse_each(try_session);
    return wrong != 0;
}
