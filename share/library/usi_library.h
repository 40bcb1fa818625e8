/* USI sessions for programs in C. A session is fed bytes and gives bytes, and does nothing by itself:
 * no thread, no clock, no file. Each one searches over a table of its own.
 *
 *     struct usi_session session = USI_SESSION_CLOSED;
 *     char buffer[1000];
 *     uint32_t status = usi_open(&session, 4096);
 *     if (status == USI_OK) status = usi_feed(&session, "go depth 3\n", 11);
 *     while (status == USI_OK && usi_look(&session).is_pending) status = usi_work(&session, 1000).status;
 *     if (status == USI_OK) {
 *         struct usi_answer taken = usi_take(&session, buffer, sizeof buffer);
 *         fwrite(buffer, 1, taken.count, stdout);
 *     } else {
 *         fprintf(stderr, "%s\n", usi_status_text(status));
 *     }
 *     usi_close(&session);
 *
 * What is asked of the caller, and checked by nothing:
 *
 * - No pointer is null, also where the length is 0; USI_NOT_NULL has compilers warn. What is behind one
 *   stays where it is, and nobody else reads or writes it, until the call returns. Behind `bytes` and
 *   `buffer` there are `length` bytes.
 * - A session begins as USI_SESSION_CLOSED, or as a struct of zeros, and is changed by these calls alone.
 *   It is not copied while it is open: a copy would free the same memory again.
 * - A call was seen to need up to 32 KB of stack: a thread with 28 KB crashed. Give it 64 KB or more.
 * - One call at a time is made on a session. It may be made on another thread than the last one, if that has
 *   seen it return, as after a lock or a join. Sessions know nothing of each other, so that calls on several
 *   of them may be made at once.
 * - Memory comes from malloc, realloc and free, which are of one allocator. A block is aligned to each power
 *   of two up to 16 that divides its size.
 * - No call is made from a signal handler, or from a forked child of a process with threads.
 *
 * What the calls promise else is proved: crates/usi_library/README.md. */
#ifndef USI_LIBRARY_H
#define USI_LIBRARY_H

#include <stdbool.h>
#include <stddef.h>
#include <stdint.h>

/* The version of this header and of the library that came with it: 0.1.0. */
#define USI_VERSION_MAJOR 0
#define USI_VERSION_MINOR 1
#define USI_VERSION_PATCH 0
#define USI_VERSION "0.1.0"

#ifdef __cplusplus
extern "C" {
#endif

#ifdef __GNUC__
#define USI_NOT_NULL __attribute__((nonnull))
#else
#define USI_NOT_NULL
#endif

/* What a call answers. Where it is not USI_OK, nothing was changed, but by usi_work. Those of an open come
 * in this order: USI_OUT_OF_RANGE, USI_UNKNOWN_EVAL to USI_DEPTH_ABOVE_MAX, USI_IS_OPEN, USI_OUT_OF_MEMORY. */
enum usi_status {
    USI_OK = 0,
    USI_CLOSED = 1,        /* the session is closed */
    USI_IS_OPEN = 2,       /* an open: it is open already */
    USI_OUT_OF_RANGE = 3,  /* an open: a table has 1 to 1,000,000 entries */
    USI_OUT_OF_MEMORY = 4, /* memory was refused; after usi_work, the next call continues */
    USI_TOO_LONG = 5,      /* usi_feed: more than 4,096 bytes at once */
    USI_NOT_WANTED = 6,    /* usi_feed: look says that no input is wanted */
    /* usi_open_with_setup alone */
    USI_UNKNOWN_EVAL = 7,           /* there is no such evaluation */
    USI_DEPTH_OUT_OF_RANGE = 8,     /* depth is from 1 to USI_DEPTH_MAX */
    USI_MAX_DEPTH_OUT_OF_RANGE = 9, /* max_depth is from 1 to USI_DEPTH_MAX */
    USI_LINES_OUT_OF_RANGE = 10,    /* lines is from 1 to USI_LINES_MAX */
    USI_DEPTH_ABOVE_MAX = 11        /* depth is above max_depth */
};

/* What a status says, for people. */
static inline const char *usi_status_text(uint32_t status) {
    switch (status) {
    case USI_OK: return "done";
    case USI_CLOSED: return "the session is closed";
    case USI_IS_OPEN: return "the session is open already";
    case USI_OUT_OF_RANGE: return "a table has 1 to 1,000,000 entries";
    case USI_OUT_OF_MEMORY: return "memory was refused";
    case USI_TOO_LONG: return "more than 4,096 bytes at once";
    case USI_NOT_WANTED: return "no input is wanted now";
    case USI_UNKNOWN_EVAL: return "there is no such evaluation";
    case USI_DEPTH_OUT_OF_RANGE: return "a depth is from 1 to 16";
    case USI_MAX_DEPTH_OUT_OF_RANGE: return "a greatest depth is from 1 to 16";
    case USI_LINES_OUT_OF_RANGE: return "best lines are from 1 to 8";
    case USI_DEPTH_ABOVE_MAX: return "the depth is above the greatest depth";
    default: return "no status of this version";
    }
}

/* The evaluations of usi_open_with_setup. */
enum usi_eval { USI_EVAL_PLAIN = 0, USI_EVAL_HAND = 1, USI_EVAL_EXCHANGE = 2 };

/* The most bytes of one usi_feed, the most entries of a table, the greatest depth, and the most best lines. */
#define USI_CHUNK_MAX 4096
#define USI_ENTRIES_MAX 1000000
#define USI_DEPTH_MAX 16
#define USI_LINES_MAX 8

/* A session, open or closed. Its fields are for the library alone. */
struct usi_session {
    void *held;
    bool is_open;
};
#define USI_SESSION_CLOSED {0, false}

struct usi_answer {
    uint32_t status; /* USI_OK, or why it was not done */
    uint64_t count;  /* steps made, or bytes taken; 0 where it was not done */
};

/* What there is of a session; all zero where it is closed. */
struct usi_look {
    uint64_t queued;  /* the bytes that usi_take would give, were there room */
    bool is_open;
    bool wants_input; /* alive, nothing pending, and fewer than 65,536 bytes queued */
    bool is_pending;  /* alive, with a running go or an unread line */
    bool is_over;     /* after quit, or a line of more than 65,535 bytes */
};

/* Opens a closed session over an empty table: the opening position, each option at its default. A table
 * takes about 35 bytes an entry at once, and 112 more for each position that it keeps. */
uint32_t usi_open(struct usi_session *session, size_t entries) USI_NOT_NULL;

/* The same under a setup, which the session keeps: `depth`, `lines` and `eval`, one of enum usi_eval, are
 * where its options Depth, MultiPV and Eval begin. The option Depth and `go depth` are held to `max_depth`.
 * The evaluation Exchange is offered where the session begins with it. usi_open is this call with 3,
 * USI_DEPTH_MAX, 1 and USI_EVAL_PLAIN. */
uint32_t usi_open_with_setup(struct usi_session *session, size_t entries, uint32_t depth, uint32_t max_depth,
                             uint32_t lines, uint32_t eval) USI_NOT_NULL;

/* Gives the memory of a session back. What was queued is gone. */
uint32_t usi_close(struct usi_session *session) USI_NOT_NULL;

/* Stores at most USI_CHUNK_MAX bytes, and answers nothing yet. */
uint32_t usi_feed(struct usi_session *session, const void *bytes, size_t length) USI_NOT_NULL;

/* Answers what is pending, with at most so many steps of search.
 * Where something is pending still, all of the steps were made. */
struct usi_answer usi_work(struct usi_session *session, uint64_t steps) USI_NOT_NULL;

/* Moves queued bytes to the front of a buffer: as many as there are, and as it has room for. */
struct usi_answer usi_take(struct usi_session *session, void *buffer, size_t length) USI_NOT_NULL;

/* What there is of a session. It changes nothing. */
struct usi_look usi_look(struct usi_session *session) USI_NOT_NULL;

#ifdef __cplusplus
}
#endif

#endif
