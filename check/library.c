/* Tries the library from C: what each call refuses, and a dialogue while the system refuses one block of
 * memory after another. It is linked with --wrap=malloc,--wrap=realloc,--wrap=free. Its argument is the reply
 * to `usi` under the setup that try_setup opens a session with. */
#include <pthread.h>
#include <stdio.h>
#include <stdlib.h>
#include <string.h>

#include "usi_library.h"

#define WANT(what, seen, wanted)                                                                         \
    do {                                                                                                 \
        unsigned long long s = (unsigned long long)(seen), w = (unsigned long long)(wanted);             \
        if (s != w) {                                                                                    \
            printf("%s:%d: %s: %llu, wanted %llu\n", __FILE__, __LINE__, what, s, w);                    \
            exit(1);                                                                                     \
        }                                                                                                \
    } while (0)

static const char SCRIPT[] = "usinewgame\nposition startpos\ngo depth 3\nquit\n";
static const char REPLY[] =
    "info depth 1 score cp 0 pv 1g1f\n"
    "info depth 2 score cp 0 pv 1g1f 1a1b\n"
    "info depth 3 score cp 200 pv 7g7f 4c4d 8h4d\n"
    "bestmove 7g7f ponder 4c4d\n";

/* How many blocks are there, how many were asked for, and which request is refused; 0 for none. */
static long blocks, requests, refused;

void *__real_malloc(size_t size);
void *__real_realloc(void *block, size_t size);
void __real_free(void *block);

void *__wrap_malloc(size_t size) {
    if (++requests == refused) return NULL;
    void *block = __real_malloc(size);
    if (block != NULL) blocks++;
    return block;
}

void *__wrap_realloc(void *block, size_t size) {
    if (++requests == refused) return NULL;
    void *moved = __real_realloc(block, size);
    if (block == NULL && moved != NULL) blocks++;
    return moved;
}

void __wrap_free(void *block) {
    if (block != NULL) blocks--;
    __real_free(block);
}

/* What is written to a session under a setup, and what it answers behind the reply to `usi`: no search is
 * deeper than 2. */
static const char SETUP_SCRIPT[] = "usi\ngo\ngo depth 3\nquit\n";
static const char SETUP_REPLY[] =
    "info depth 1 score cp 0 pv 1g1f\n"
    "bestmove 1g1f\n"
    "info depth 1 score cp 0 pv 1g1f\n"
    "info depth 2 score cp 0 pv 1g1f 1a1b\n"
    "bestmove 1g1f ponder 1a1b\n";

static void want_nothing(struct usi_session *session) {
    struct usi_look look = usi_look(session);
    WANT("is_open", look.is_open, false);
    WANT("queued", look.queued, 0);
    WANT("wants_input", look.wants_input, false);
    WANT("is_pending", look.is_pending, false);
    WANT("is_over", look.is_over, false);
}

static void try_closed(void) {
    struct usi_session session = USI_SESSION_CLOSED;
    long before = requests;
    char buffer[2] = "xy";
    want_nothing(&session);
    WANT("feed", usi_feed(&session, "usi\n", 4), USI_CLOSED);
    WANT("work", usi_work(&session, 10).status, USI_CLOSED);
    WANT("take", usi_take(&session, buffer, sizeof buffer).status, USI_CLOSED);
    WANT("buffer", memcmp(buffer, "xy", 2), 0);
    WANT("close", usi_close(&session), USI_CLOSED);
    WANT("no entry", usi_open(&session, 0), USI_OUT_OF_RANGE);
    WANT("too many", usi_open(&session, USI_ENTRIES_MAX + 1), USI_OUT_OF_RANGE);
    want_nothing(&session);
    WANT("requests", requests, before);
}

static void try_refusals(void) {
    struct usi_session session = USI_SESSION_CLOSED;
    static char chunk[USI_CHUNK_MAX + 1];
    memset(chunk, ' ', sizeof chunk);
    WANT("open", usi_open(&session, 1), USI_OK);
    WANT("again", usi_open(&session, 1), USI_IS_OPEN);
    WANT("out of range", usi_open(&session, 0), USI_OUT_OF_RANGE);
    WANT("too long", usi_feed(&session, chunk, sizeof chunk), USI_TOO_LONG);
    WANT("none", usi_feed(&session, chunk, 0), USI_OK);
    WANT("most", usi_feed(&session, chunk, USI_CHUNK_MAX), USI_OK);
    WANT("line feed", usi_feed(&session, "\nisready\n", 9), USI_OK);
    WANT("pending", usi_look(&session).is_pending, true);
    WANT("not wanted", usi_feed(&session, "usi\n", 4), USI_NOT_WANTED);
    WANT("no room", usi_take(&session, chunk, 0).count, 0);
    struct usi_answer worked = usi_work(&session, 0);
    WANT("work", worked.status, USI_OK);
    WANT("steps", worked.count, 0);
    WANT("queued", usi_look(&session).queued, 8);
    WANT("part", usi_take(&session, chunk, 3).count, 3);
    WANT("rest", usi_take(&session, chunk + 3, sizeof chunk - 3).count, 5);
    WANT("reply", memcmp(chunk, "readyok\n ", 9), 0);
    WANT("close", usi_close(&session), USI_OK);
    want_nothing(&session);
    WANT("blocks", blocks, 0);
}

/* The numbers of a setup that are refused, each with all that comes after it in the order of refusals. */
static void try_wrong_setups(void) {
    struct usi_session session = USI_SESSION_CLOSED;
    static const struct { uint32_t depth, max_depth, lines, eval, status; } rows[] = {
        {0, 0, 0, 3, USI_UNKNOWN_EVAL},
        {3, 16, 1, UINT32_MAX, USI_UNKNOWN_EVAL},
        {0, 0, 0, USI_EVAL_PLAIN, USI_DEPTH_OUT_OF_RANGE},
        {USI_DEPTH_MAX + 1, 16, 1, USI_EVAL_HAND, USI_DEPTH_OUT_OF_RANGE},
        {257, 16, 1, USI_EVAL_PLAIN, USI_DEPTH_OUT_OF_RANGE},
        {16, 0, 0, USI_EVAL_PLAIN, USI_MAX_DEPTH_OUT_OF_RANGE},
        {1, USI_DEPTH_MAX + 1, 1, USI_EVAL_PLAIN, USI_MAX_DEPTH_OUT_OF_RANGE},
        {1, UINT32_MAX, 1, USI_EVAL_EXCHANGE, USI_MAX_DEPTH_OUT_OF_RANGE},
        {16, 1, 0, USI_EVAL_PLAIN, USI_LINES_OUT_OF_RANGE},
        {16, 1, USI_LINES_MAX + 1, USI_EVAL_PLAIN, USI_LINES_OUT_OF_RANGE},
        {1, 1, 264, USI_EVAL_PLAIN, USI_LINES_OUT_OF_RANGE},
        {2, 1, 1, USI_EVAL_PLAIN, USI_DEPTH_ABOVE_MAX},
        {16, 15, 8, USI_EVAL_EXCHANGE, USI_DEPTH_ABOVE_MAX},
    };
    for (int open = 0; open < 2; open++) {
        for (size_t i = 0; i < sizeof rows / sizeof *rows; i++) {
            uint32_t depth = rows[i].depth, most = rows[i].max_depth, lines = rows[i].lines, eval = rows[i].eval;
            WANT("setup", usi_open_with_setup(&session, 1, depth, most, lines, eval), rows[i].status);
            WANT("no entry", usi_open_with_setup(&session, 0, depth, most, lines, eval), USI_OUT_OF_RANGE);
            WANT("is_open", usi_look(&session).is_open, open);
        }
        if (open) break;
        WANT("open", usi_open_with_setup(&session, USI_ENTRIES_MAX, 16, 16, 8, USI_EVAL_HAND), USI_OK);
    }
    WANT("again", usi_open_with_setup(&session, 1, 1, 1, 1, USI_EVAL_PLAIN), USI_IS_OPEN);
    WANT("close", usi_close(&session), USI_OK);
    WANT("blocks", blocks, 0);
}

static void try_setup(const char *usi) {
    struct usi_session session = USI_SESSION_CLOSED;
    char reply[sizeof SETUP_REPLY + 1000];
    size_t first = strlen(usi);
    WANT("open", usi_open_with_setup(&session, 4096, 1, 2, 1, USI_EVAL_EXCHANGE), USI_OK);
    WANT("feed", usi_feed(&session, SETUP_SCRIPT, strlen(SETUP_SCRIPT)), USI_OK);
    while (usi_look(&session).is_pending) WANT("work", usi_work(&session, 1000).status, USI_OK);
    struct usi_answer taken = usi_take(&session, reply, sizeof reply);
    WANT("length", taken.count, first + strlen(SETUP_REPLY));
    WANT("usi", memcmp(reply, usi, first), 0);
    WANT("reply", memcmp(reply + first, SETUP_REPLY, taken.count - first), 0);
    WANT("close", usi_close(&session), USI_OK);
    WANT("blocks", blocks, 0);
}

/* The script in slices of so many steps, taken in pieces of so many bytes. A call that was refused memory is
 * made again. Returns how often that was so. */
static long try_script(uint64_t steps, size_t piece) {
    struct usi_session session = USI_SESSION_CLOSED;
    char reply[sizeof REPLY + 100];
    size_t length = 0;
    long times = 0;
    uint32_t status;
    while ((status = usi_open(&session, 4096)) == USI_OUT_OF_MEMORY) {
        want_nothing(&session);
        times++;
    }
    WANT("open", status, USI_OK);
    while ((status = usi_feed(&session, SCRIPT, strlen(SCRIPT))) == USI_OUT_OF_MEMORY) times++;
    WANT("feed", status, USI_OK);
    while (usi_look(&session).is_pending) {
        struct usi_answer worked = usi_work(&session, steps);
        if (worked.status == USI_OUT_OF_MEMORY)
            times++;
        else
            WANT("work", worked.status, USI_OK);
        if (worked.count > steps) WANT("steps", worked.count, steps);
        if (usi_look(&session).is_pending && worked.status == USI_OK) WANT("steps", worked.count, steps);
        struct usi_answer taken = usi_take(&session, reply + length, piece);
        WANT("take", taken.status, USI_OK);
        length += taken.count;
    }
    struct usi_look look = usi_look(&session);
    WANT("over", look.is_over, true);
    struct usi_answer taken = usi_take(&session, reply + length, sizeof reply - length);
    WANT("rest", taken.count, look.queued);
    length += taken.count;
    WANT("length", length, strlen(REPLY));
    WANT("reply", memcmp(reply, REPLY, length), 0);
    WANT("not wanted", usi_feed(&session, "usi\n", 4), USI_NOT_WANTED);
    WANT("close", usi_close(&session), USI_OK);
    WANT("blocks", blocks, 0);
    return times;
}

/* With each request refused in turn. A table that may not keep an entry refuses no call, so that fewer calls
 * are refused than requests. */
static void try_memory(void) {
    requests = 0;
    WANT("refused", try_script(1000, 7), 0);
    long most = requests, times = 0;
    for (long n = 1; n <= most; n++) {
        requests = 0;
        refused = n;
        times += try_script(1000, 7);
    }
    refused = 0;
    if (times == 0 || times > most) WANT("refused", times, most);
    printf("%s", most > 10 ? "refused\n" : "");
}

/* Each status has a text of its own. */
static void try_texts(void) {
    for (uint32_t status = USI_OK; status <= USI_DEPTH_ABOVE_MAX + 1; status++)
        for (uint32_t other = USI_OK; other < status; other++)
            WANT("text", strcmp(usi_status_text(status), usi_status_text(other)) == 0, false);
    WANT("no status", strcmp(usi_status_text(12), usi_status_text(UINT32_MAX)), 0);
    WANT("version", strcmp(USI_VERSION, "0.1.0"), 0);
}

/* One call on the session, of the thread that is told by it. */
struct step { struct usi_session *session; int number; char reply[sizeof REPLY + 100]; size_t length; };

static void *one_step(void *given) {
    struct step *step = given;
    if (step->number == 0) WANT("open", usi_open_with_setup(step->session, 4096, 16, 16, 8, USI_EVAL_PLAIN), USI_OK);
    if (step->number == 1) WANT("feed", usi_feed(step->session, SCRIPT, strlen(SCRIPT)), USI_OK);
    if (step->number == 2)
        while (usi_look(step->session).is_pending) WANT("work", usi_work(step->session, 1000).status, USI_OK);
    if (step->number == 3) step->length = usi_take(step->session, step->reply, sizeof step->reply).count;
    if (step->number == 4) WANT("close", usi_close(step->session), USI_OK);
    return NULL;
}

/* Each call on another thread, with little stack. */
static void try_threads(void) {
    struct usi_session session = USI_SESSION_CLOSED;
    static struct step step;
    step.session = &session;
    pthread_attr_t small;
    pthread_attr_init(&small);
    WANT("stack", pthread_attr_setstacksize(&small, 64 * 1024), 0);
    for (step.number = 0; step.number < 5; step.number++) {
        pthread_t thread;
        WANT("thread", pthread_create(&thread, &small, one_step, &step), 0);
        pthread_join(thread, NULL);
    }
    WANT("is_open", usi_look(&session).is_open, false);
    if (step.length < 100) WANT("length", step.length, 100);
}

int main(int count, char **words) {
    WANT("arguments", count, 2);
    try_texts();
    try_threads();
    try_closed();
    try_refusals();
    try_wrong_setups();
    try_setup(words[1]);
    try_script(1, 1);
    try_script(UINT64_MAX, 50);
    try_memory();
    return 0;
}
