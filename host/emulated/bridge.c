/* The caller's side of the bridge (README.md here): the functions of keyline.h for this processor, each of which hands its call to
 * server.c in a process of its own and waits for the answer. The server is started with the first call and ends with the caller.
 *
 * SERVER is the command, as strings with commas between them: the build says it. */
#include "../../crates/exports/keyline.h"
#include <pthread.h>
#include <spawn.h>
#include <stdio.h>
#include <stdlib.h>
#include <string.h>
#include <unistd.h>

extern char **environ;

enum { DECODE = 1, ENCODE = 2, RUN = 3, HEAD = 34, ANSWER = 33, SLICES = 4 };

static pthread_mutex_t one_at_a_time = PTHREAD_MUTEX_INITIALIZER;
static int to_server = -1, from_server = -1;

static void stop(const char *why) {
    fprintf(stderr, "the bridge to the emulated kernel: %s\n", why);
    abort();
}

static void start(void) {
    char *command[] = {SERVER, NULL};
    int calls[2], answers[2];
    pid_t child;
    posix_spawn_file_actions_t actions;
    if (pipe(calls) || pipe(answers)) stop("no pipe");
    posix_spawn_file_actions_init(&actions);
    posix_spawn_file_actions_adddup2(&actions, calls[0], 0);
    posix_spawn_file_actions_adddup2(&actions, answers[1], 1);
    for (int i = 0; i < 2; i++) {
        posix_spawn_file_actions_addclose(&actions, calls[i]);
        posix_spawn_file_actions_addclose(&actions, answers[i]);
    }
    if (posix_spawn(&child, command[0], &actions, NULL, command, environ)) stop("the emulator does not start");
    posix_spawn_file_actions_destroy(&actions);
    close(calls[0]);
    close(answers[1]);
    to_server = calls[1];
    from_server = answers[0];
}

static void give(const void *bytes, size_t count) {
    for (const char *from = bytes; count > 0;) {
        ssize_t n = write(to_server, from, count);
        if (n <= 0) stop("the server takes no more");
        from += n, count -= (size_t)n;
    }
}

static void take(void *bytes, size_t count) {
    for (char *to = bytes; count > 0;) {
        ssize_t n = read(from_server, to, count);
        if (n <= 0) stop("the server has ended: a guard was written over, or it failed");
        to += n, count -= (size_t)n;
    }
}

static uint8_t call(uint8_t function, uint8_t power, const uint8_t *slices[SLICES], const uint64_t lengths[SLICES],
                    uint8_t *written, uint64_t values[4]) {
    uint8_t head[HEAD] = {function, power}, answer[ANSWER];
    memcpy(head + 2, lengths, SLICES * sizeof *lengths);
    pthread_mutex_lock(&one_at_a_time);
    if (to_server < 0) start();
    give(head, HEAD);
    /* the server reads all of a call before it answers, so neither side waits for the other's pipe to empty */
    for (int i = 0; i < SLICES; i++) give(slices[i], lengths[i]);
    take(answer, ANSWER);
    memcpy(values, answer + 1, 4 * sizeof *values);
    take(written, lengths[3]);
    pthread_mutex_unlock(&one_at_a_time);
    return answer[0];
}

uint8_t keyline_delegation_decode(const uint8_t *payload, size_t payload_length,
                                  size_t *beside, uint8_t *power, uint8_t *rank, size_t *citation) {
    uint64_t values[4];
    uint8_t none[1];
    uint8_t number = call(DECODE, 0, (const uint8_t *[]){payload, none, none, none},
                          (uint64_t[]){payload_length, 0, 0, 0}, none, values);
    *beside = values[0], *power = (uint8_t)values[1], *rank = (uint8_t)values[2], *citation = values[3];
    return number;
}

uint8_t keyline_delegation_encode(const uint8_t *audience, size_t audience_length,
                                  const uint8_t *subject, size_t subject_length,
                                  uint8_t power,
                                  const uint8_t *citation, size_t citation_length,
                                  uint8_t *out, size_t out_length,
                                  size_t *written, size_t *beside) {
    uint64_t values[4];
    uint8_t number = call(ENCODE, power, (const uint8_t *[]){audience, subject, citation, out},
                          (uint64_t[]){audience_length, subject_length, citation_length, out_length}, out, values);
    *written = values[0], *beside = values[1];
    return number;
}

uint8_t keyline_run(const uint8_t *script, size_t script_length,
                    uint8_t *answers, size_t answers_length,
                    size_t *used, size_t *beside) {
    uint64_t values[4];
    uint8_t none[1];
    uint8_t number = call(RUN, 0, (const uint8_t *[]){script, none, none, answers},
                          (uint64_t[]){script_length, 0, 0, answers_length}, answers, values);
    *used = values[0], *beside = values[1];
    return number;
}
