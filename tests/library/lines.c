#define _POSIX_C_SOURCE 200809L
/* Gives the lines of standard input to a session, and writes its answers: lines WORD [SECOND]. The first room is small, so long
 * answers are asked for again. The status is that of the session, or 9 where a call answers something else. */
#include <stdio.h>
#include <stdlib.h>
#include <string.h>

#include "cpe.h"

static char room[1 << 16];

/* Writes an answer that was given, or asks for it again where it was too long. */
static void write_answer(cpe_session *session, int code, size_t number, const char *given) {
    if (code == CPE_DONE) {
        fwrite(given, 1, number, stdout);
        return;
    }
    if (code != CPE_SHORT) {
        fprintf(stderr, "code %d\n", code);
        exit(9);
    }
    char *whole = malloc(number);
    size_t again = 0;
    if (!whole || cpe_session_answer(session, whole, number, &again) != CPE_DONE || again != number) exit(9);
    fwrite(whole, 1, number, stdout);
    free(whole);
}

int main(int count, char **words) {
    cpe_session *session = NULL;
    int code = cpe_session_open(words[1], count > 2 ? words[2] : NULL, &session);
    if (code != CPE_DONE) {
        fprintf(stderr, "not opened: %d\n", code);
        return 9;
    }
    char *line = NULL;
    size_t space = 0, number = 0;
    ssize_t length;
    while ((length = getline(&line, &space, stdin)) > 0) {
        if (line[length - 1] == '\n') length--;
        code = cpe_session_line(session, line, (size_t)length, room, 64, &number);
        write_answer(session, code, number, room);
    }
    int status = 9;
    code = cpe_session_end(session, room, 64, &number, &status);
    write_answer(session, code, number, room);
    cpe_session_close(session);
    free(line);
    return status;
}
