// Steps of elements: a source reads them, a channel brings them to the next task, and a sink prepares, publishes and gives them up.
// With one subtask the task is source and sink. With two the first is the source, and the second has the sink and two inputs: the channel, and
// the orders of the coordinator.
#include "steps.hpp"

#include <algorithm>

static bool is_chained() {
    return scope.subtasks == 2;
}

static u8 *end_of(u8 *channel) {
    return std::find(channel, channel + MOST_ITEMS, 0);
}

// Whether what the task sends has a place in its channel.
bool Steps::has_room_after(unsigned place) const {
    return !is_chained() || from->tasks[place].subtask != SOURCE || from->flows[place + 1].channel[MOST_ITEMS - 1] == 0;
}

void Steps::put_into_channel(unsigned place, u8 item) {
    if (is_chained() && next.tasks[place].subtask == SOURCE && next.tasks[place + 1].incarnation) {
        *end_of(next.flows[place + 1].channel) = item;
    }
}

// A source that was replaced reads on only where its elements can do harm.
void Steps::read_element(unsigned place) {
    const Task &task = from->tasks[place];
    const Flow &flow = from->flows[place];
    const bool may = task.subtask == SOURCE && flow.opening == 0 && !is_holding(*from, task) && may_touch_target(place);
    if (offer(may && flow.now.taken < scope.limit[ELEMENTS] && has_room_after(place))) {
        const u8 element = ++next.flows[place].now.taken;
        tell_task(task, "reads %u", element);
        put_into_channel(place, element);
        made();
    }
}

// Behind a barrier that has come on the channel nothing is taken before the cut. An older one is late: its record was given up.
static bool is_held(const Task &task, const Flow &flow) {
    return scope.is_on[CUT] && flow.arrived != 0 && (task.barrier == 0 || flow.arrived >= task.barrier);
}

void Steps::take_item(unsigned place) {
    const Task &task = from->tasks[place];
    const Flow &flow = from->flows[place];
    const u8 item = flow.channel[0];
    if (offer(item != 0 && flow.opening == 0 && !is_held(task, flow) && !is_holding(*from, task) && may_touch_target(place))) {
        Flow &mine = next.flows[place];
        std::copy(flow.channel + 1, flow.channel + MOST_ITEMS, mine.channel);
        mine.channel[MOST_ITEMS - 1] = 0;
        if (item & BARRIER) {
            const u8 record = item & ~BARRIER;
            mine.arrived = record > flow.begun ? record : 0;
            tell_task(task, "takes barrier %u from 0.0", record);
        } else {
            mine.now.taken = item;
            tell_task(task, "takes %u from 0.0", item);
        }
        made();
    }
}

bool Steps::may_cut(unsigned place) const {
    const Task &task = from->tasks[place];
    const Flow &flow = from->flows[place];
    const bool is_sink = task.subtask == sink_of_job();
    const bool has_aligned = !is_chained() || task.subtask == SOURCE || !scope.is_on[CUT] || flow.arrived == task.barrier;
    const bool may_prepare = !is_sink || (flow.opening == 0 && may_touch_target(place));
    return !scope.has_elements() || (has_aligned && may_prepare && has_room_after(place));
}

// The task takes its snapshot: it has begun the record.
void Steps::cut(unsigned place) {
    Task &mine = next.tasks[place];
    mine.holds = mine.stops && scope.is_on[HOLD] ? mine.record : 0;
    if (!scope.has_elements()) {
        return;
    }
    Flow &flow = next.flows[place];
    flow.begun = mine.record;
    flow.arrived = 0;
    if (mine.subtask == sink_of_job()) {
        const bool is_closed = next.target.closed & bit(mine.record);
        flow.now.prepared |= bit(mine.record);
        next.target.prepared[mine.record] = is_closed ? 0 : up_to(flow.now.taken) & ~up_to(flow.cut.taken);
        tell_task(mine, "prepares %u", mine.record);
    }
    flow.cut = flow.now;
    put_into_channel(place, BARRIER | mine.record);
}

// What was published before, or given up, is not there: then nothing happens.
void Steps::publish(unsigned place, Small records) {
    Target &target = next.target;
    records &= found(target);
    for (unsigned record = 1; record <= LAST_RECORD; record++) {
        if (records & bit(record)) {
            target.twice |= target.published & target.prepared[record];
            target.published |= target.prepared[record];
            target.shown |= target.prepared[record];
            target.closed |= bit(record);
            target.prepared[record] = 0;
            seen[PUBLISHED]++;
        }
    }
    if (records) {
        tell_task(next.tasks[place], "publishes%s", words(records, "").c_str());
    }
}

void Steps::publish_told(unsigned place) {
    const Flow &flow = from->flows[place];
    if (offer(flow.told != 0 && flow.opening == 0 && may_touch_target(place))) {
        const Small records = up_to(flow.told);
        publish(place, flow.now.prepared & records);
        next.flows[place].now.prepared &= ~records;
        next.flows[place].told = 0;
        made();
    }
}

// A sink that starts publishes what the restored record has prepared, since this may not have been told, and then gives up all else.
void Steps::open_sink(unsigned place) {
    const Flow &flow = from->flows[place];
    if (offer(flow.opening == 2 && is_running(place))) {
        publish(place, scope.is_on[BY_STATE] ? flow.now.prepared : up_to(flow.begun));
        next.flows[place].now.prepared = 0;
        next.flows[place].opening = 1;
        made();
    }
    if (offer(flow.opening == 1 && is_running(place))) {
        const Small others = found(from->target);
        if (!scope.is_on[GIVE_UP]) {
            next.flows[place].now.prepared = others; // it takes what it finds for its own
        } else if (others) {
            next.target.dropped |= others;
            std::fill(next.target.prepared, next.target.prepared + LAST_RECORD + 1, 0);
            seen[GIVEN_UP]++;
            tell_task(from->tasks[place], "drops%s", words(others, "").c_str());
        }
        next.flows[place].cut = next.flows[place].now;
        next.flows[place].opening = 0;
        made();
    }
}

void Steps::tell_sink(u8 record) {
    const unsigned place = sink_of_job();
    if (scope.has_elements() && next.tasks[place].incarnation) {
        next.flows[place].told = std::max(next.flows[place].told, record);
        tell("complete %u to 0.%u %u", record, place, next.tasks[place].incarnation);
    }
}

void Steps::of_elements(unsigned place) {
    if (scope.has_elements()) {
        read_element(place);
        take_item(place);
        publish_told(place);
        open_sink(place);
    }
}
