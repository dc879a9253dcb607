/* rows SCRIPT WANTED: opens a coordinator as the script or log says, makes its calls, and compares each answer with the lines of the
 * file WANTED. The script has a config and a job line, a start line, and after that only calls and lines with faults
 * (docs/SCRIPT.md), which the library's own reader reads. It is run once with all memory, and then once for each request for memory, which is refused once. A call
 * that runs out of memory returns so, and is made again. */
#define _GNU_SOURCE
#include "../../../include/relkvanu.h"
#include "refusing_heap.h"

#include <inttypes.h>
#include <stdio.h>
#include <stdlib.h>
#include <string.h>
#include <unistd.h>

enum { SCRIPT_SHAPE = 256 };

/* All zero: a script of which no line was read yet. */
struct script {
    relkvanu handle;
    relkvanu_settings settings;   /* of the last config line */
    uint64_t shape[SCRIPT_SHAPE]; /* of the last job line */
    size_t shape_len;
    uint64_t *taken; /* what the last take line fetched: the first ones, as many as its answer says */
    size_t taken_room;
    uint8_t *json; /* what the last show line answered */
    size_t json_len;
};

static void tell_taken(const struct script *script, FILE *to, uint64_t len) {
    fprintf(to, "take%s", len == 0 ? " none" : "");
    for (uint64_t place = 0; place < len; place++) {
        fprintf(to, " %" PRIu64, script->taken[place]);
    }
    fprintf(to, "\n");
}

/* The text of an answer is the library's, and a fault's has the number of its line before it. A take and a show print what they fetched. */
static void script_tell(const struct script *script, FILE *to, uint64_t number, relkvanu_answer answer) {
    uint8_t text[RELKVANU_ANSWER_TEXT];
    size_t len = relkvanu_answer_text(&answer, text, sizeof text);
    uint32_t what = answer.code == RELKVANU_DONE ? answer.what : UINT32_MAX;
    if (what == RELKVANU_TAKEN) {
        tell_taken(script, to, answer.a);
    } else if (what == RELKVANU_SHOWN) {
        fprintf(to, "%.*s\n", (int)answer.a, (const char *)script->json);
    } else if (what != RELKVANU_OPENED && what != RELKVANU_SKIPPED) {
        if (answer.code == RELKVANU_BAD_LINE) {
            fprintf(to, "line %" PRIu64 " ", number);
        }
        fprintf(to, "%.*s\n", (int)len, (const char *)text);
    }
}

/* Asks with the buffer that is there, or with one that is long enough. */
static relkvanu_answer show(struct script *script, uint64_t id, size_t bytes) {
    if (bytes > script->json_len) {
        uint8_t *longer = realloc(script->json, bytes);
        if (longer == NULL) {
            return (relkvanu_answer){RELKVANU_NO_MEMORY, 0, 0, 0};
        }
        script->json = longer;
        script->json_len = bytes;
    }
    return relkvanu_show(&script->handle, id, script->json, script->json_len);
}

/* Makes the call of a take line with room for this many files. */
static relkvanu_answer take_line(struct script *script, const char *line, size_t len, size_t files) {
    uint64_t *more = files <= SIZE_MAX / sizeof *more ? realloc(script->taken, files * sizeof *more) : NULL;
    if (more == NULL) {
        return (relkvanu_answer){RELKVANU_NO_MEMORY, 0, 0, 0};
    }
    script->taken = more;
    script->taken_room = files;
    return relkvanu_line(&script->handle, (const uint8_t *)line, len, script->taken, script->taken_room);
}

/* Makes the call of a line whose answer found too little room, and says how much it takes: a show or a take line. */
static relkvanu_answer longer(struct script *script, const char *line, size_t len, size_t room) {
    relkvanu_call call = {0};
    relkvanu_answer says = relkvanu_line_call((const uint8_t *)line, len, &call, NULL, 0, NULL, 0);
    if (says.code != RELKVANU_DONE) {
        return says;
    }
    return call.kind == RELKVANU_CALL_SHOW ? show(script, call.number, room) : take_line(script, line, len, room);
}

static void configure(relkvanu_settings *settings, const uint64_t *numbers) {
    *settings = (relkvanu_settings){numbers[0], numbers[1], numbers[2], numbers[3], numbers[4], numbers[5], numbers[6] != 0};
}

static relkvanu_answer start(struct script *script, uint64_t now) {
    uint64_t words[2];
    if (getentropy(words, sizeof words) != 0) {
        perror("getentropy");
        exit(2);
    }
    return relkvanu_open(&script->handle, &script->settings, script->shape, script->shape_len, now, 1, words[0], words[1]);
}

/* A line that makes no call of the coordinator. */
static relkvanu_answer opening(struct script *script, const uint8_t *line, size_t len) {
    uint64_t numbers[SCRIPT_SHAPE];
    relkvanu_answer says = relkvanu_line_says(line, len, numbers, SCRIPT_SHAPE), opened = {RELKVANU_DONE, RELKVANU_OPENED, 0, 0};
    if (says.code == RELKVANU_TOO_SHORT) { /* a job line with more vertices than a job has */
        return (relkvanu_answer){RELKVANU_BAD_ARGUMENT, RELKVANU_BAD_SHAPE, 0, 0};
    } else if (says.code != RELKVANU_DONE) {
        return says;
    }
    switch (says.what) {
    case RELKVANU_LINE_SKIP: return (relkvanu_answer){RELKVANU_DONE, RELKVANU_SKIPPED, 0, 0};
    case RELKVANU_LINE_CONFIG: configure(&script->settings, numbers); return opened;
    case RELKVANU_LINE_JOB:
        memcpy(script->shape, numbers, says.a * sizeof numbers[0]);
        script->shape_len = says.a;
        return opened;
    case RELKVANU_LINE_START: return start(script, numbers[0]);
    case RELKVANU_LINE_CALL: return (relkvanu_answer){RELKVANU_CLOSED, 0, 0, 0}; /* before the start line */
    default: return (relkvanu_answer){RELKVANU_BAD_LINE, RELKVANU_FAULT_NO_CALL, 0, 0};
    }
}

static relkvanu_answer script_line(struct script *script, const char *line, size_t len) {
    const uint8_t *bytes = (const uint8_t *)line;
    relkvanu_answer answer = relkvanu_line(&script->handle, bytes, len, script->taken, script->taken_room);
    bool is_opening = answer.code == RELKVANU_CLOSED || (answer.code == RELKVANU_BAD_LINE && answer.what == RELKVANU_FAULT_NO_CALL);
    if (is_opening) {
        return opening(script, bytes, len);
    }
    return answer.code == RELKVANU_TOO_SHORT ? longer(script, line, len, answer.a) : answer;
}

static void script_close(struct script *script) {
    relkvanu_close(&script->handle);
    free(script->json);
    free(script->taken);
    script->json = NULL;
    script->taken = NULL;
    script->json_len = script->taken_room = 0;
}

/* Makes the line's call and writes its answer. If memory was refused, which happens once, makes the call again. */
static void obey(struct script *script, const char *line, size_t len, uint64_t number, FILE *told) {
    relkvanu_answer answer = script_line(script, line, len);
    if (answer.code == RELKVANU_NO_MEMORY) {
        answer = script_line(script, line, len);
    }
    script_tell(script, told, number, answer);
}

static FILE *opened(const char *path) {
    FILE *from = fopen(path, "r");
    if (from == NULL) {
        perror(path);
        exit(2);
    }
    return from;
}

/* The next line without its newline, and its length; -1 at the end. */
static ssize_t next_line(char **line, size_t *room, FILE *from) {
    ssize_t len = getline(line, room, from);
    if (len > 0 && (*line)[len - 1] == '\n') {
        (*line)[--len] = '\0';
    }
    return len;
}

/* Runs the script. Returns whether the answers are the expected ones. */
static bool runs(const char *path, const char *wanted, size_t wanted_len, uint64_t refused, uint64_t *requests) {
    static struct script script;
    char *text = NULL, *line = NULL;
    size_t room = 0;
    size_t len = 0;
    FILE *from = opened(path);
    FILE *told = open_memstream(&text, &len);
    if (told == NULL) {
        perror("open_memstream");
        exit(2);
    }
    memset(&script, 0, sizeof script);
    heap_refuse(refused);
    uint64_t number = 0;
    for (ssize_t line_len = next_line(&line, &room, from); line_len >= 0; line_len = next_line(&line, &room, from)) {
        obey(&script, line, (size_t)line_len, ++number, told);
    }
    *requests = heap_requests();
    script_close(&script);
    bool shut = script.handle.state == NULL && relkvanu_tick(&script.handle, 0).code == RELKVANU_CLOSED;
    free(line);
    fclose(from);
    fclose(told);
    bool same = shut && len == wanted_len && memcmp(text, wanted, len) == 0;
    if (!same) {
        fprintf(stderr, "%s, request %" PRIu64 " refused, told:\n%s", path, refused, text);
    }
    free(text);
    return same;
}

static char *contents(const char *path, size_t *len) {
    FILE *from = opened(path);
    char *text = malloc(1 << 20);
    *len = fread(text, 1, 1 << 20, from);
    fclose(from);
    return text;
}

int main(int argc, char **argv) {
    if (argc != 3) {
        fprintf(stderr, "rows SCRIPT WANTED\n");
        return 2;
    }
    size_t len;
    char *wanted = contents(argv[2], &len);
    uint64_t requests, ignored;
    bool same = runs(argv[1], wanted, len, 0, &requests);
    for (uint64_t refused = 1; same && refused <= requests; refused++) {
        same = runs(argv[1], wanted, len, refused, &ignored);
    }
    free(wanted);
    return same ? 0 : 1;
}
