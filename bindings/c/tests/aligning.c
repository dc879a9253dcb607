/* aligning: gives each function of an alignment, and then of a recorder, memory of any content: each such memory is an alignment, and each step is one that the
 * header has. The bytes of the inputs are a block of their own with the length that the call gets. A step that is refused must change nothing. The packages make
 * the steps of examples/alignment.rows and examples/unaligned.rows. */
#include "fenced.h"

enum { ANY_MEMORIES = 20000, EVENTS_OF_ALIGNER = 4, EVENTS_OF_RECORDER = 5 };

/* The alignment of a task, or its recorder. */
struct task {
    relkvanu_aligner aligner;
    relkvanu_recorder recorder;
    uint8_t *inputs;
    size_t len;
};

static bool is_refused(relkvanu_step step) {
    return step.what >= RELKVANU_STEP_UNKNOWN_INPUT && step.what <= RELKVANU_STEP_BAD_INPUTS;
}

static relkvanu_step step_of_aligner(struct task *task, uint64_t event, uint32_t input, uint64_t id) {
    switch (event) {
    case 0: return relkvanu_align_element(&task->aligner, task->inputs, task->len, input);
    case 1: return relkvanu_align_barrier(&task->aligner, task->inputs, task->len, input, id);
    case 2: return relkvanu_align_end(&task->aligner, task->inputs, task->len, input);
    default: return relkvanu_align_give_up(&task->aligner, task->inputs, task->len, id);
    }
}

static relkvanu_step step_of_recorder(struct task *task, uint64_t event, uint32_t input, uint64_t id) {
    switch (event) {
    case 0: return relkvanu_unaligned_element(&task->recorder, task->inputs, task->len, input);
    case 1: return relkvanu_unaligned_barrier(&task->recorder, task->inputs, task->len, input, id);
    case 2: return relkvanu_unaligned_end(&task->recorder, task->inputs, task->len, input);
    case 3: return relkvanu_unaligned_give_up(&task->recorder, task->inputs, task->len, id);
    default: return relkvanu_unaligned_overtake(&task->recorder, task->inputs, task->len, id);
    }
}

static uint64_t next_random(uint64_t *state) {
    *state ^= *state << 13;
    *state ^= *state >> 7;
    *state ^= *state << 17;
    return *state;
}

/* Makes a step of this memory. */
static void make(struct task *task, bool is_recorder, uint64_t *random) {
    struct task old = *task;
    uint8_t *bytes = malloc(task->len + 1);
    CHECK(bytes != NULL);
    memcpy(bytes, task->inputs, task->len);
    uint64_t event = next_random(random) % (is_recorder ? EVENTS_OF_RECORDER : EVENTS_OF_ALIGNER), id = next_random(random) % 4;
    uint32_t input = (uint32_t)next_random(random) % 10;
    relkvanu_step step = is_recorder ? step_of_recorder(task, event, input, id) : step_of_aligner(task, event, input, id);
    bool is_same = task->aligner.latest == old.aligner.latest && task->recorder.latest == old.recorder.latest &&
                   task->recorder.phase == old.recorder.phase && memcmp(bytes, task->inputs, task->len) == 0;
    CHECK(step.what >= RELKVANU_STEP_PROCESS && step.what <= RELKVANU_STEP_COMPLETE && (is_same || !is_refused(step)));
    free(bytes);
}

/* Memories of any content, also with no input. */
static void make_any(bool is_recorder) {
    uint64_t random = 88172645463325252u;
    for (int at = 0; at < ANY_MEMORIES; at++) {
        struct task task = {.len = next_random(&random) % 9};
        task.inputs = malloc(task.len != 0 ? task.len : 1);
        CHECK(task.inputs != NULL);
        for (size_t input = 0; input < task.len; input++) {
            task.inputs[input] = (uint8_t)next_random(&random);
        }
        task.aligner.latest = task.recorder.latest = next_random(&random) % 4;
        task.recorder.phase = (uint32_t)next_random(&random) % 5;
        for (int step = 0; step < 20; step++) {
            make(&task, is_recorder, &random);
        }
        free(task.inputs);
    }
}

int main(void) {
    make_any(false);
    make_any(true);
    return 0;
}
