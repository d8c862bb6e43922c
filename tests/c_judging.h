/* What tests of the library for C share whose rows go by files of tables: how a case is judged, how a file is read, what a call has
 * written, and threads that share something. A test defines TEST, its name in messages, before it includes this. */
#ifndef TALMUIGA_C_JUDGING_H
#define TALMUIGA_C_JUDGING_H

#include "talmuiga.h"

#include <pthread.h>
#include <stdio.h>

enum { MOST = 1 << 20, ROOM = 96, THREADS = 4 };

#define ROWS(table) (sizeof(table) / sizeof(table)[0])

static int failed;

static inline void judge(const char *what, const char *which, const char *why, int holds) {
    if (!holds) {
        fprintf(stderr, TEST ": %s: %.70s: %s\n", what, which, why);
        failed = 1;
    }
}

/* The bytes of a file of tables. */
struct tables {
    char bytes[MOST];
    size_t len;
};

/* Reads a file of tables. More keys, if there are any, replace the brace at its end, as `,"ranges":[]}` does. */
static inline int is_read(struct tables *tables, const char *name, const char *more) {
    FILE *file = fopen(name, "rb");
    if (!file) return 0;
    size_t len = fread(tables->bytes, 1, MOST / 2, file);
    fclose(file);
    if (more) {
        while (len && tables->bytes[len - 1] != '}') len--;
        if (!len) return 0;
        len--;
        strcpy(tables->bytes + len, more);
        len += strlen(more);
    }
    tables->len = len;
    return 1;
}

/* A skeleton or a message has no fault: the kind of none is 0 of both. */
static inline int is_no_fault(const talmuiga_fault *fault) {
    return fault->byte == 0 && fault->kind == TALMUIGA_FAULT_NONE && fault->thing == 0;
}

/* Judges how a formatter was opened by a skeleton: with this status, and with a fault at this byte where the skeleton is rejected. */
static inline void judge_opened(const char *what, const char *skeleton, uint32_t status, uint32_t wanted, const talmuiga_fault *fault,
                                size_t byte) {
    judge(what, skeleton, talmuiga_status_text(status), status == wanted);
    judge(what, skeleton, "its fault",
          status == TALMUIGA_SKELETON_REFUSED ? fault->byte == byte && fault->kind : is_no_fault(fault));
}

/* What a call leaves: its status, the length of a text, and the room for it. */
struct written {
    uint32_t status;
    size_t length;
    char room[ROOM];
};

/* What is there before a call: another length, and a room that is full of x. */
static inline struct written unwritten(void) {
    struct written it = {0, 99, ""};
    memset(it.room, 'x', ROOM);
    return it;
}

/* Whether so many bytes are all x. */
static inline int is_untouched(const char *room, size_t len) {
    return room[0] == 'x' && memcmp(room, room + 1, len - 1) == 0;
}

/* Whether a call has written this text. */
static inline int is_text(const struct written *it, const char *wanted) {
    return it->status == TALMUIGA_DONE && it->length == strlen(wanted) && memcmp(it->room, wanted, it->length) == 0;
}

/* Judges what a call has left that had so much room: the text and nothing behind it, or where it doesn't fit nothing but its length. */
static inline void judge_room(const char *what, const char *which, const char *wanted, size_t room, const struct written *it) {
    const size_t want = strlen(wanted);
    judge(what, which, "its length", it->length == want);
    judge(what, which, talmuiga_status_text(it->status),
          it->status == (uint32_t)(want <= room ? TALMUIGA_DONE : TALMUIGA_OUTPUT_TOO_SMALL));
    if (want <= room) judge(what, which, "its text", memcmp(it->room, wanted, want) == 0 && it->room[want] == 'x');
    else judge(what, which, "a room that is too small", is_untouched(it->room, ROOM));
}

/* Runs a function in several threads at once. It returns what they share, or null where a text is wrong. */
static inline void judge_in_threads(const char *which, void *(*run)(void *), void *shared) {
    pthread_t threads[THREADS];
    int started = 0;
    while (started < THREADS && !pthread_create(threads + started, NULL, run, shared)) started++;
    judge("threads", which, "started", started == THREADS);
    for (int i = 0; i < started; i++) {
        void *ended = NULL;
        pthread_join(threads[i], &ended);
        judge("threads", which, "its texts", ended != NULL);
    }
}

#endif
