/* The border of the library: what C may get wrong is tested here, and then a proved call of crates/c_library is made. Nothing here is
 * proved. A proved call asks that its slices are of memory that is there, of no more than PTRDIFF_MAX bytes, and that what it
 * writes overlaps with nothing else; and that a session is one that it left here. */
#include "cpe.h"

#include <stdint.h>
#include <stdlib.h>
#include <string.h>

/* As crates/c_library declares them. A slice is its pointer and its length. */
struct answer {
    uint32_t code;
    size_t number;
};

struct kept {
    void *at;
};

typedef unsigned char byte;

struct answer cpe_c_unbind(const byte *text, size_t length, byte *out, size_t size);
struct answer cpe_c_bind_fs(const byte *text, size_t length, byte *out, size_t size);
struct answer cpe_c_bind_uri(const byte *text, size_t length, byte *out, size_t size);
struct answer cpe_c_relate(const byte *source, size_t source_length, const byte *target, size_t target_length,
    struct cpe_relations *numbers);
struct answer cpe_c_covers(const byte *source, size_t source_length, const byte *target, size_t target_length);
struct answer cpe_c_begin(const byte *word, size_t length, const byte *second, size_t second_length, struct kept *kept);
struct answer cpe_c_line(struct kept *kept, const byte *piece, size_t length, byte *out, size_t size);
struct answer cpe_c_end(struct kept *kept, byte *out, size_t size, byte *status);
struct answer cpe_c_again(struct kept *kept, byte *out, size_t size);
void cpe_c_close(struct kept *kept);

/* What a session is: what the proved calls left. It has a session exactly where the pointer is not null. */
struct cpe_session {
    struct kept kept;
};

/* Where a text of no bytes is NULL, a slice still wants an address. */
static byte nowhere[1];

static const byte *text_at(const char *text) { return text ? (const byte *)text : nowhere; }

static byte *room_at(char *out) { return out ? (byte *)out : nowhere; }

static int is_slice(const void *at, size_t length) { return length <= PTRDIFF_MAX && (at || length == 0); }

static int overlap(const void *text, size_t length, const void *out, size_t size) {
    uintptr_t a = (uintptr_t)text, b = (uintptr_t)out;
    return length && size && (a < b ? b - a < length : a - b < size);
}

static int misused(const char *text, size_t length, const char *out, size_t size) {
    return !is_slice(text, length) || !is_slice(out, size) || overlap(text, length, out, size);
}

static int told(struct answer answer, size_t *number) {
    if (number) *number = answer.number;
    return (int)answer.code;
}

static int misuse(size_t *number) {
    if (number) *number = 0;
    return CPE_MISUSE;
}

int cpe_unbind(const char *text, size_t length, char *out, size_t size, size_t *number) {
    if (misused(text, length, out, size)) return misuse(number);
    return told(cpe_c_unbind(text_at(text), length, room_at(out), size), number);
}

int cpe_bind_fs(const char *text, size_t length, char *out, size_t size, size_t *number) {
    if (misused(text, length, out, size)) return misuse(number);
    return told(cpe_c_bind_fs(text_at(text), length, room_at(out), size), number);
}

int cpe_bind_uri(const char *text, size_t length, char *out, size_t size, size_t *number) {
    if (misused(text, length, out, size)) return misuse(number);
    return told(cpe_c_bind_uri(text_at(text), length, room_at(out), size), number);
}

int cpe_relate(const char *source, size_t source_length, const char *target, size_t target_length,
    struct cpe_relations *relations, size_t *number) {
    if (!is_slice(source, source_length) || !is_slice(target, target_length) || !relations) return misuse(number);
    struct cpe_relations found = *relations;
    struct answer answer = cpe_c_relate(text_at(source), source_length, text_at(target), target_length, &found);
    *relations = found;
    return told(answer, number);
}

int cpe_covers(const char *source, size_t source_length, const char *target, size_t target_length,
    int *covers, size_t *number) {
    if (!is_slice(source, source_length) || !is_slice(target, target_length) || !covers) return misuse(number);
    struct answer answer = cpe_c_covers(text_at(source), source_length, text_at(target), target_length);
    if (answer.code == CPE_DONE) {
        *covers = (int)answer.number;
        answer.number = 0;
    }
    return told(answer, number);
}

int cpe_session_open(const char *word, const char *second, cpe_session **session) {
    if (!session) return CPE_MISUSE;
    *session = NULL;
    if (!word) return CPE_MISUSE;
    cpe_session *made = calloc(1, sizeof *made);
    if (!made) return CPE_MEMORY;
    struct answer answer = cpe_c_begin(text_at(word), strlen(word), text_at(second), second ? strlen(second) : 0, &made->kept);
    if (answer.code != CPE_DONE) {
        free(made);
        return (int)answer.code;
    }
    *session = made;
    return CPE_DONE;
}

int cpe_session_line(cpe_session *session, const char *line, size_t length, char *out, size_t size, size_t *number) {
    if (!session || misused(line, length, out, size)) return misuse(number);
    return told(cpe_c_line(&session->kept, text_at(line), length, room_at(out), size), number);
}

int cpe_session_end(cpe_session *session, char *out, size_t size, size_t *number, int *status) {
    if (!session || !is_slice(out, size)) return misuse(number);
    byte ending = 0;
    struct answer answer = cpe_c_end(&session->kept, room_at(out), size, &ending);
    if (status && (answer.code == CPE_DONE || answer.code == CPE_SHORT)) *status = ending;
    return told(answer, number);
}

int cpe_session_answer(cpe_session *session, char *out, size_t size, size_t *number) {
    if (!session || !is_slice(out, size)) return misuse(number);
    return told(cpe_c_again(&session->kept, room_at(out), size), number);
}

void cpe_session_close(cpe_session *session) {
    if (!session) return;
    cpe_c_close(&session->kept);
    free(session);
}
