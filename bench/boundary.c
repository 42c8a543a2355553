/* boundary LOADS DRAWINGS ANSWERS..
 *
 * Calls with known outcomes (the files of `oracle/run --sheets-to loads` and `--sheets-to drawings` and
 * those of `--sheets-to answers`), each in buffers of exactly the words or bytes that are lent, which
 * are never written before the call, and for a caller among records of exactly their length: the first,
 * the last and those between in turns. Each call, and each for a class load, is made for callers outside
 * the records too. Run under valgrind, which sees every word that the library touches outside, and every
 * branch on a word never written. */
#include <stdio.h>
#include <stdlib.h>
#include <string.h>

#include "service.h"

static uint32_t *file_words(const char *name, size_t *count) {
    FILE *file = fopen(name, "rb");
    if (file == NULL || fseek(file, 0, SEEK_END) != 0) {
        perror(name);
        exit(2);
    }
    *count = (size_t)ftell(file) / 4;
    rewind(file);
    uint32_t *words = malloc(*count * 4);
    if (words == NULL || fread(words, 4, *count, file) != *count) {
        perror(name);
        exit(2);
    }
    fclose(file);
    return words;
}

static int zero_bytes(const uint8_t *bytes, size_t count) {
    for (size_t i = 0; i < count; i++) {
        if (bytes[i] != 0) {
            return 0;
        }
    }
    return 1;
}

static int zeros(const uint32_t *words, size_t count) {
    return zero_bytes((const uint8_t *)words, count * 4);
}

enum { CALLERS = 4 };

/* The records, and the serial that is counted here for each. */
static struct Caller *callers;
static uint32_t next[CALLERS];
static unsigned long calls, accepted, outside, loads, loads_for, drawings, drawn;

/* Callers outside the records: one past the last, the largest position, one past those that are lent,
 * whose record is there all the same, and the first where no record is lent. */
static const struct {
    size_t count, position;
} others[] = {{CALLERS, CALLERS}, {CALLERS, SIZE_MAX}, {1, 1}, {0, 0}, {0, SIZE_MAX}};

enum { OTHERS = sizeof others / sizeof others[0] };

/* No record is lent as NULL. */
static struct Caller *lent(size_t count) {
    return count == 0 ? NULL : callers;
}

static int counted(void) {
    for (size_t i = 0; i < CALLERS; i++) {
        if (callers[i].next != next[i]) {
            return 0;
        }
    }
    return 1;
}

/* A call on a sheet, with what its record says of it: the sheet after its length, the words of the
 * workspace, the room for the result, the refusal, the result's length. */
struct Call {
    const uint32_t *recorded;
    uint32_t *sheet, *workspace;
    size_t sheet_words, workspace_words, room, length;
    uint32_t refusal;
};

/* Reads a record up to its result, which begins at *at afterwards. */
static struct Call begin(const uint32_t **at) {
    struct Call call;
    const uint32_t *word = *at;
    call.sheet_words = *word++;
    call.recorded = word;
    call.sheet = malloc(call.sheet_words * 4);
    memcpy(call.sheet, word, call.sheet_words * 4);
    word += call.sheet_words;
    call.workspace_words = *word++;
    call.room = *word++;
    call.refusal = *word++;
    call.length = *word++;
    /* Never written: the library may not look at what it holds. */
    call.workspace = malloc(call.workspace_words * 4);
    *at = word;
    return call;
}

/* Whether the sheet is as it was and the workspace all 0; gives both back. */
static int end(struct Call call) {
    int right = zeros(call.workspace, call.workspace_words) &&
                memcmp(call.sheet, call.recorded, call.sheet_words * 4) == 0;
    free(call.sheet);
    free(call.workspace);
    return right;
}

static void expect(int right, const char *what, unsigned long number) {
    if (!right) {
        printf("%s %lu differs\n", what, number);
        exit(1);
    }
}

static int refused_outside(struct Reply reply) {
    return reply.refusal == SERVICE_REFUSED_OUTSIDE_RECORDS && reply.serial == 0 &&
           reply.length == 0 && counted();
}

/* The same call for a caller outside the records. */
static void replay_outside(const uint32_t *at) {
    struct Call call = begin(&at);
    /* Never written, as the workspace. */
    uint32_t *answer = malloc(call.room * 4);
    size_t count = others[outside % OTHERS].count;
    struct Reply reply =
        service_infer(lent(count), count, others[outside % OTHERS].position, call.sheet,
                      call.sheet_words, call.workspace, call.workspace_words, answer, call.room);
    int right = refused_outside(reply) && zeros(answer, call.room);
    free(answer);
    expect(end(call) && right, "call outside the records", outside);
    outside++;
}

/* A record of a call: its result is the words of the answer. Returns where the next one begins. */
static const uint32_t *replay(const uint32_t *at) {
    replay_outside(at);
    struct Call call = begin(&at);
    /* Never written, as the workspace. */
    uint32_t *answer = malloc(call.room * 4);
    size_t position = calls % CALLERS;
    uint32_t before = next[position];
    struct Reply reply =
        service_infer(callers, CALLERS, position, call.sheet, call.sheet_words, call.workspace,
                      call.workspace_words, answer, call.room);
    next[position] += call.refusal == 0;
    int right = reply.refusal == call.refusal && reply.length == call.length &&
                memcmp(answer, at, call.length * 4) == 0 &&
                zeros(answer + call.length, call.room - call.length) &&
                reply.serial == (call.refusal == 0 ? before : 0) && counted();
    free(answer);
    expect(end(call) && right, "call", calls);
    calls++;
    accepted += call.refusal == 0;
    return at + call.length;
}

/* A record of a class load: seed, n, m, output room, refusal, sheet. */
static const uint32_t *replay_load(const uint32_t *at) {
    size_t room = at[3];
    uint32_t refusal = at[4];
    size_t length = at[5];
    /* Never written, as the workspace. */
    uint32_t *sheet = malloc(room * 4);
    struct Reply reply = service_load(at[0], at[1], at[2], sheet, room);
    int right = reply.refusal == refusal && reply.serial == 0 && reply.length == length &&
                memcmp(sheet, at + 6, length * 4) == 0 && zeros(sheet + length, room - length);
    free(sheet);
    expect(right, "load", loads);
    sheet = malloc(room * 4);
    reply = service_load_for(callers, CALLERS, loads % CALLERS, at[0], at[1], at[2], sheet, room);
    right = reply.refusal == refusal && reply.serial == 0 && reply.length == length &&
            memcmp(sheet, at + 6, length * 4) == 0 && zeros(sheet + length, room - length) &&
            counted();
    free(sheet);
    expect(right, "load for a caller", loads);
    sheet = malloc(room * 4);
    size_t count = others[loads % OTHERS].count;
    reply = service_load_for(lent(count), count, others[loads % OTHERS].position, at[0], at[1], at[2],
                             sheet, room);
    right = refused_outside(reply) && zeros(sheet, room);
    free(sheet);
    expect(right, "load outside the records", loads);
    loads++;
    loads_for += 2;
    return at + 6 + length;
}

/* A record of a drawing: room and length count bytes, its result is the bytes in whole words. */
static const uint32_t *replay_drawing(const uint32_t *at) {
    struct Call call = begin(&at);
    /* Never written, as the workspace. */
    uint8_t *text = malloc(call.room);
    struct Reply reply = service_dot(call.sheet, call.sheet_words, call.workspace,
                                     call.workspace_words, text, call.room);
    int right = reply.refusal == call.refusal && reply.serial == 0 &&
                reply.length == call.length && memcmp(text, at, call.length) == 0 &&
                zero_bytes(text + call.length, call.room - call.length);
    free(text);
    expect(end(call) && right, "drawing", drawings);
    drawings++;
    drawn += call.refusal == 0;
    return at + (call.length + 3) / 4;
}

/* Every record of a file. */
static void replay_all(const char *name, const uint32_t *(*record)(const uint32_t *)) {
    size_t words;
    uint32_t *all = file_words(name, &words);
    for (const uint32_t *at = all; at < all + words;) {
        at = record(at);
    }
    free(all);
}

int main(int count, char **names) {
    callers = malloc(CALLERS * sizeof *callers);
    for (size_t i = 0; i < CALLERS; i++) {
        callers[i] = service_new();
        expect(callers[i].next == 0, "new record", i);
    }
    /* The last one wraps, the others do not. */
    callers[CALLERS - 1].next = next[CALLERS - 1] = UINT32_MAX - 100;
    for (int i = 1; i < count; i++) {
        replay_all(names[i], i == 1 ? replay_load : i == 2 ? replay_drawing : replay);
    }
    free(callers);
    printf("%lu calls as expected, %lu of them accepted; %lu more outside the records; %lu calls for "
           "class loads, %lu more for callers; %lu for drawings, %lu of them drawn\n",
           calls, accepted, outside, loads, loads_for, drawings, drawn);
    return 0;
}
