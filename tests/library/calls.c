/* Every call of the library once, with every answer that it has but out of memory (memory.c). It writes what is wrong, and its status is 0
 * where nothing is. */
#include <stdint.h>
#include <stdio.h>
#include <stdlib.h>
#include <string.h>

#include "cpe.h"

static int wrong;

#define IS(it) do { if (!(it)) { wrong++; printf("%s:%d: %s\n", __FILE__, __LINE__, #it); } } while (0)

#define TEXT(text) (text), strlen(text)

static const char fs[] = "cpe:2.3:a:microsoft:internet_explorer:8.0.6001:beta:*:*:*:*:*:*";
static const char uri[] = "cpe:/a:microsoft:internet_explorer:8.0.6001:beta";
static const char wfn[] = "wfn:[part=\"a\",vendor=\"microsoft\",product=\"internet_explorer\",version=\"8\\.0\\.6001\",update=\"beta\","
    "edition=ANY,language=ANY,sw_edition=ANY,target_sw=ANY,target_hw=ANY,other=ANY]";

typedef int form(const char *, size_t, char *, size_t, size_t *);

static void try_form(form *call, const char *from, const char *to) {
    size_t number = 0, length = strlen(to);
    char *room = malloc(length + 1);
    IS(call(TEXT(from), room, length, &number) == CPE_DONE && number == length && memcmp(room, to, length) == 0);
    memset(room, 'x', length + 1);
    IS(call(TEXT(from), room, length - 1, &number) == CPE_SHORT && number == length && room[0] == 'x' && room[length - 2] == 'x');
    IS(call(TEXT(from), NULL, 0, &number) == CPE_SHORT && number == length);
    IS(call(TEXT(from), room, length, NULL) == CPE_DONE);
    char large[4096];
    IS(call(TEXT(from), large, sizeof large, &number) == CPE_DONE && number == length && memcmp(large, to, length) == 0);
    IS(call(NULL, 0, large, sizeof large, &number) == CPE_REFUSED && number == 0);
    IS(call(NULL, 1, large, sizeof large, &number) == CPE_MISUSE);
    IS(call(TEXT(from), NULL, 1, &number) == CPE_MISUSE);
    IS(call(from, SIZE_MAX, large, sizeof large, &number) == CPE_MISUSE);
    IS(call(TEXT(from), large, SIZE_MAX, &number) == CPE_MISUSE);
    memcpy(large, from, strlen(from));
    IS(call(large, strlen(from), large, sizeof large, &number) == CPE_MISUSE);
    IS(call(large, strlen(from), large + 1, sizeof large - 1, &number) == CPE_MISUSE);
    IS(call(large + 1, strlen(from), large, 2, &number) == CPE_MISUSE);
    free(room);
}

static void try_forms(void) {
    char room[4096];
    size_t number = 9;
    try_form(cpe_unbind, fs, wfn);
    try_form(cpe_unbind, uri, wfn);
    try_form(cpe_bind_fs, wfn, fs);
    try_form(cpe_bind_uri, wfn, uri);
    IS(cpe_unbind(TEXT("cpe:2.3:x:"), room, sizeof room, &number) == CPE_REFUSED && number == 8);
    IS(cpe_unbind(TEXT("cpe:2.3:x:"), room, 1, &number) == CPE_REFUSED && number == 8);
    IS(cpe_bind_fs(TEXT("wfn:["), room, sizeof room, &number) == CPE_REFUSED && number == 0);
}

static void try_pairs(void) {
    const char *any = "cpe:2.3:a:microsoft:internet_explorer:8.*:*:*:*:*:*:*:*";
    struct cpe_relations all;
    size_t number = 9;
    int covers = 9;
    memset(&all, 77, sizeof all);
    IS(cpe_relate(TEXT(any), TEXT(fs), &all, &number) == CPE_DONE && number == 0);
    IS(all.whole == CPE_SUPERSET && all.part == CPE_EQUAL && all.version == CPE_SUPERSET && all.update == CPE_SUPERSET && all.other == CPE_EQUAL);
    IS(cpe_relate(TEXT(fs), TEXT(any), &all, NULL) == CPE_DONE && all.whole == CPE_UNDEFINED && all.version == CPE_UNDEFINED);
    IS(cpe_covers(TEXT(any), TEXT(fs), &covers, &number) == CPE_DONE && covers == 1 && number == 0);
    IS(cpe_covers(TEXT(fs), TEXT(any), &covers, &number) == CPE_DONE && covers == 0);
    IS(cpe_covers(TEXT(fs), TEXT(uri), &covers, &number) == CPE_DONE && covers == 1);
    IS(cpe_covers(TEXT("cpe:/"), TEXT("cpe:/x"), &covers, &number) == CPE_TARGET_REFUSED && number == 5 && covers == 1);
    IS(cpe_covers(TEXT("cpe:2.3:"), TEXT(fs), &covers, &number) == CPE_REFUSED && number == 8);
    struct cpe_relations before = all;
    IS(cpe_relate(TEXT("x"), TEXT(fs), &all, &number) == CPE_REFUSED && number == 0 && memcmp(&before, &all, sizeof all) == 0);
    IS(cpe_relate(TEXT(fs), TEXT("x"), &all, &number) == CPE_TARGET_REFUSED && memcmp(&before, &all, sizeof all) == 0);
    IS(cpe_relate(NULL, 1, TEXT(fs), &all, &number) == CPE_MISUSE);
    IS(cpe_relate(TEXT(fs), NULL, 1, &all, &number) == CPE_MISUSE);
    IS(cpe_relate(TEXT(fs), TEXT(fs), NULL, &number) == CPE_MISUSE);
    IS(cpe_relate(fs, SIZE_MAX, TEXT(fs), &all, &number) == CPE_MISUSE);
    IS(cpe_covers(NULL, 1, TEXT(fs), &covers, &number) == CPE_MISUSE);
    IS(cpe_covers(TEXT(fs), TEXT(fs), NULL, &number) == CPE_MISUSE);
}

static void try_sessions(void) {
    cpe_session *session = (cpe_session *)&wrong;
    char room[256];
    size_t number = 9;
    int status = 9;
    IS(cpe_session_open("none", NULL, &session) == CPE_NO_COMMAND && !session);
    IS(cpe_session_open("make", "5", &session) == CPE_NO_COMMAND && !session);
    IS(cpe_session_open("bind", NULL, &session) == CPE_NO_COMMAND && !session);
    IS(cpe_session_open("watch", "fs", &session) == CPE_NO_COMMAND && !session);
    IS(cpe_session_open("", NULL, &session) == CPE_NO_COMMAND && !session);
    session = (cpe_session *)&wrong;
    IS(cpe_session_open(NULL, NULL, &session) == CPE_MISUSE && !session);
    IS(cpe_session_open("unbind", NULL, NULL) == CPE_MISUSE);
    IS(cpe_session_open("unbind", NULL, &session) == CPE_DONE && session);
    IS(cpe_session_answer(session, room, sizeof room, &number) == CPE_DONE && number == 0);
    IS(cpe_session_line(session, TEXT(fs), room, 10, &number) == CPE_SHORT && number == strlen(wfn) + 1);
    IS(cpe_session_line(session, TEXT("a\nb"), room, sizeof room, &number) == CPE_NOT_A_LINE);
    IS(cpe_session_line(session, NULL, 1, room, sizeof room, &number) == CPE_MISUSE);
    IS(cpe_session_line(session, TEXT(fs), NULL, 1, &number) == CPE_MISUSE);
    IS(cpe_session_line(session, room, 2, room, sizeof room, &number) == CPE_MISUSE);
    IS(cpe_session_line(NULL, TEXT(fs), room, sizeof room, &number) == CPE_MISUSE);
    IS(cpe_session_answer(session, room, sizeof room, &number) == CPE_DONE && number == strlen(wfn) + 1
        && memcmp(room, wfn, number - 1) == 0 && room[number - 1] == '\n');
    IS(cpe_session_line(session, TEXT("x\r"), room, sizeof room, &number) == CPE_DONE && number == 17
        && memcmp(room, "refused 2 name 0\n", number) == 0);
    IS(cpe_session_line(session, NULL, 0, room, sizeof room, &number) == CPE_DONE && number == 0);
    char *large = calloc(1, 65537);
    IS(cpe_session_line(session, large, 65537, room, sizeof room, &number) == CPE_DONE && number == 15
        && memcmp(room, "refused 4 long\n", number) == 0);
    free(large);
    IS(cpe_session_end(NULL, room, sizeof room, &number, &status) == CPE_MISUSE);
    IS(cpe_session_end(session, NULL, 1, &number, &status) == CPE_MISUSE && status == 9);
    IS(cpe_session_end(session, room, sizeof room, &number, &status) == CPE_DONE && number == 0 && status == 1);
    status = 9;
    IS(cpe_session_end(session, room, sizeof room, &number, &status) == CPE_OVER && status == 9);
    IS(cpe_session_line(session, TEXT(fs), room, sizeof room, &number) == CPE_OVER);
    IS(cpe_session_answer(session, room, sizeof room, &number) == CPE_DONE && number == 0);
    IS(cpe_session_answer(NULL, room, sizeof room, &number) == CPE_MISUSE);
    cpe_session_close(session);
    cpe_session_close(NULL);
    IS(cpe_session_open("bind", "uri", &session) == CPE_DONE);
    IS(cpe_session_line(session, TEXT(wfn), room, sizeof room, &number) == CPE_DONE && number == strlen(uri) + 1 && memcmp(room, uri, strlen(uri)) == 0);
    IS(cpe_session_end(session, room, sizeof room, NULL, NULL) == CPE_DONE);
    cpe_session_close(session);
}

int main(void) {
    try_forms();
    try_pairs();
    try_sessions();
    return wrong != 0;
}
