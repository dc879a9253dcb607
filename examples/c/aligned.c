/* aligned: a task with two inputs. Its snapshot for a record has exactly what came before the barriers of that record. */
#include <inttypes.h>
#include <relkvanu.h>
#include <stdio.h>
#include <stdlib.h>

enum { INPUTS = 2 };

/* What comes on each input: an element, the barrier -n of record n, or 0 at the end. */
static const int64_t channels[INPUTS][8] = {{1, -1, 2, 3, -2, 4, 0}, {10, 20, 2, -1, 72, -2, 96, 0}};
static size_t places[INPUTS];

static relkvanu_aligner aligner;
static uint8_t inputs[INPUTS];
static int64_t sum;

/* What is next on an input. The engine asks for an element before it processes it, and leaves one that it has to hold. */
static relkvanu_step next(uint32_t input) {
    int64_t it = channels[input][places[input]];
    if (it > 0) {
        return relkvanu_align_element(&aligner, inputs, INPUTS, input);
    }
    return it == 0 ? relkvanu_align_end(&aligner, inputs, INPUTS, input)
                   : relkvanu_align_barrier(&aligner, inputs, INPUTS, input, (uint64_t)-it);
}

static bool take(uint32_t input) {
    relkvanu_step step = next(input);
    switch (step.what) {
    case RELKVANU_STEP_HOLD:
    case RELKVANU_STEP_HELD_INPUT: return false; /* it stays on its channel */
    case RELKVANU_STEP_PROCESS: sum += channels[input][places[input]]; break;
    case RELKVANU_STEP_CUT:
        /* here the task writes its snapshot, sends the barrier on each output, and later acknowledges the record */
        printf("cut of %" PRIu64 " with the sum %" PRId64 "\n", step.id, sum);
        break;
    case RELKVANU_STEP_ABANDON: printf("record %" PRIu64 " is declined\n", step.id); break;
    case RELKVANU_STEP_NOTHING:
    case RELKVANU_STEP_WAIT:
    case RELKVANU_STEP_LATE: break;
    default: fprintf(stderr, "step %u: the engine broke the rules\n", step.what); exit(1);
    }
    return true;
}

int main(void) {
    size_t ended = 0;
    if (relkvanu_align_open(&aligner, inputs, INPUTS).what != RELKVANU_STEP_NOTHING) {
        return 1;
    }
    for (uint32_t input = 0; ended < INPUTS; input = (input + 1) % INPUTS) {
        bool is_last = channels[input][places[input]] == 0;
        if (places[input] < 8 && take(input)) {
            ended += is_last;
            places[input] = is_last ? 8 : places[input] + 1;
        }
    }
    printf("ended with the sum %" PRId64 "\n", sum);
    return 0;
}
