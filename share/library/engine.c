/* A USI engine in C: what standard input says is answered on standard output.
 *
 *     cc -o engine engine.c libusi.a && echo 'go depth 3' | ./engine */
#include <stdio.h>
#include <stdlib.h>

#include "usi_library.h"

#define ENTRIES 4096
#define STEPS 10000

/* Writes what is queued, and flushes it, so that lines come while a search goes on. */
static bool write_queued(struct usi_session *session) {
    char buffer[USI_CHUNK_MAX];
    size_t count;
    do {
        count = (size_t)usi_take(session, buffer, sizeof buffer).count;
        if (fwrite(buffer, 1, count, stdout) != count) return false;
    } while (count == sizeof buffer);
    return fflush(stdout) == 0;
}

/* Answers a line, or a part of one; why not, or USI_OK. A failed write ends the program. */
static uint32_t answer(struct usi_session *session, const char *line, size_t length) {
    uint32_t status = usi_feed(session, line, length);
    while (status == USI_OK && usi_look(session).is_pending) {
        status = usi_work(session, STEPS).status;
        if (status == USI_OK && !write_queued(session)) exit(1);
    }
    return status;
}

int main(void) {
    struct usi_session session = USI_SESSION_CLOSED;
    uint32_t status = usi_open(&session, ENTRIES);
    char line[USI_CHUNK_MAX];
    while (status == USI_OK && !usi_look(&session).is_over) {
        size_t length = 0;
        int byte = EOF;
        while (length < sizeof line && (byte = getchar()) != EOF) {
            line[length++] = (char)byte;
            if (byte == '\n') break;
        }
        if (length == 0) break;
        status = answer(&session, line, length);
    }
    usi_close(&session);
    if (status == USI_OK) return 0;
    fprintf(stderr, "engine: %s\n", usi_status_text(status));
    return 1;
}
