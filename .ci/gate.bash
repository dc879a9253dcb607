#!/usr/bin/env bash
# .ci/gate.bash: how the gate runs its parts, what it counts and what it tells. .ci/run has the parts and their order. tests/test_gate, a part
# too, tries this file with made-up ones.
#
# A script that reads this file sets PARTS to the names of all parts, calls `run_marked "$@"` first of all, then `begin`, and `start` with functions that call
# `part`. It waits by `finish`, which tells the counts.
set -uo pipefail

# The least count of each part: a line 'NAME: COUNT' for each.
FLOORS=${FLOORS:-.ci/floors}
# The last lines of the last whole run, by which the gate tells how long a part takes, and what is left.
LAST_RUN=${LAST_RUN:-docs/gate-last-run.txt}
# The longest time of a part and of the whole gate in seconds, as the clock of `watch` counts them, and of single parts. Two slow processors have room
# for all of it: only what hangs takes as long.
MOST_OF_PART=${MOST_OF_PART:-3600}
MOST_OF_ALL=${MOST_OF_ALL:-10200}
declare -A MOST_OF=()
# What a line has that speaks of a failure: of rt, rattle, rustc, gcc, Python, Go, Java and of the scripts here.
BAD_WORDS='FAIL|failed|[Ee]rror|not ok|NOT |panicked'

# run_marked ARGUMENT..: starts this program again, once, with a mark in its surroundings. All that it starts has the mark, and is found by it
# when it must end, also if it has left its group or its parent. What starts the gate may ignore signals, and no shell can take that back
# for what it runs itself.
run_marked() {
    local mark=${GATE_RUN:-} signals=()
    if [ "${mark%%.*}" != $$ ]; then
        if env --default-signal=PIPE,CHLD,TERM,INT,HUP true 2> /dev/null; then
            signals=("--default-signal=PIPE,CHLD,TERM,INT,HUP")
        fi
        exec env "${signals[@]}" GATE_RUN="$$.$SRANDOM" "$BASH" "$0" "$@"
    fi
    unset CDPATH
}

# choose_folder: takes /var/tmp for temporary files if /tmp has less than 12 GB and less than that: /tmp may be a small one in memory.
choose_folder() {
    local here there
    here=$(df --output=avail -m "${TMPDIR:-/tmp}" | tail -n 1)
    there=$(df --output=avail -m /var/tmp | tail -n 1)
    if [ -w /var/tmp ] && [ "${here:-0}" -lt 12000 ] && [ "${here:-0}" -lt "${there:-0}" ]; then
        export TMPDIR=/var/tmp
    fi
}

# settle: the parts see the same surroundings, whatever starts the gate: perhaps a hook of git with variables of its own, a user without a home
# or who is not the owner of this clone, a mask by which another user can't run a built program, a proxy that would also get what tests send
# to this machine, or an input that never ends.
settle() {
    local its
    umask 022
    # a test that ends a program by a signal leaves no core
    ulimit -S -c 0
    exec < /dev/null
    its=$(git rev-parse --local-env-vars 2> /dev/null)
    # shellcheck disable=SC2086  # several names
    unset $its LANGUAGE BASH_ENV
    export GIT_CONFIG_COUNT=1 GIT_CONFIG_KEY_0=safe.directory GIT_CONFIG_VALUE_0
    GIT_CONFIG_VALUE_0=$(pwd -P)
    export PATH LC_ALL=C.UTF-8
    export no_proxy="localhost,127.0.0.1,::1${no_proxy:+,$no_proxy}"
    export NO_PROXY=$no_proxy
    if [ ! -d "${HOME:-}" ] || [ ! -w "$HOME" ]; then
        export HOME=$work/home
        mkdir "$HOME"
    fi
}

# begin: makes the folder of what is counted and noted, and has signals end the gate in good order.
begin() {
    choose_folder
    work=$(mktemp -d) || exit 2
    trap 'rm -rf "$work"' EXIT
    trap 'end_early TERM 15' TERM
    trap 'end_early INT 2' INT
    trap 'end_early HUP 1' HUP
    settle
    mkdir "$work/running"
    : > "$work/counts"
    : > "$work/skips"
    : > "$work/notes"
    exec 3>&1
    groups=()
    has_all=no
    processors=$(count_processors)
}

# Sets `used` to the processor seconds of this shell and of all commands that it has waited for.
read_used() {
    local file=$work/times.$BASHPID
    # In a subshell `times` would return the times of the subshell.
    LC_ALL=C times > "$file"
    used=$(awk -F '[ms ]+' '{ sum += 60 * ($1 + $3) + $2 + $4 } END { printf "%.0f", sum }' "$file")
}

# minutes SECONDS: the same in minutes.
minutes() {
    printf '%d.%d' $(($1 / 60)) $(($1 % 60 / 6))
}

# note TEXT: is told among the last lines.
note() {
    echo "gate: $1" >> "$work/notes"
}

# note_skips LOG: notes what a part skipped. Fails if nothing may be skipped here, or if a tool is there that the part called missing.
note_skips() {
    local tool what status=0
    while IFS=: read -r _ tool what; do
        tool=${tool# }
        echo "$tool:$what" >> "$work/skips"
        if [ "$has_all" = yes ]; then
            note "skipped although everything was installed: $tool:$what"
            status=1
        elif command -v "$tool" > /dev/null; then
            note "skipped although $tool is here:$what"
            status=1
        else
            note "skipped, since $tool is missing:$what"
        fi
    done < <(grep '^skipped: ' "$1")
    return "$status"
}

# note_missing_parts: counts a failure for each part that left no count, or more than one.
note_missing_parts() {
    local name found
    for name in "${PARTS[@]}"; do
        found=$(grep -c "^$name|" "$work/counts")
        if [ "$found" -ne 1 ]; then
            note "$name left $found counts"
            echo "the count of $name|0|1|0" >> "$work/counts"
        fi
    done
}

# bad_lines LOG: the lines that speak of a failure, each with its number: the first ten, of which one mostly has the cause, and the last ten.
bad_lines() {
    grep -nE "$BAD_WORDS" "$1" | grep -v ', 0 failed' | awk '
        NR <= 10 { print; next }
        { last[NR] = $0 }
        END {
            from = NR - 9 > 11 ? NR - 9 : 11
            if (from > 11) print "(" from - 11 " more such lines)"
            for (at = from; at <= NR; at++) print last[at]
        }'
}

# note_failure LOG: notes where a part that failed spoke of a failure, and what it said last. Its output is far above the gate's last lines.
note_failure() {
    { bad_lines "$1"; tail -n 20 "$1"; } | cut -c 1-400 | sed 's/^/gate: | /' >> "$work/notes"
}

# run_part NAME LOG COMMAND..: runs the command, with a mark of the part, and leaves what it says in the log. That is a file and no pipe: the
# gate would wait for a process that a test left behind, since it holds the pipe open. If `is_shown` is set, what it says is shown at once.
run_part() {
    local name=$1 log=$2
    shift 2
    (
        export GATE_PART="$GATE_RUN $name"
        if [ -n "${is_shown:-}" ]; then
            "$@" 2>&1 3>&- | tee "$log" >&3
            exit "${PIPESTATUS[0]}"
        fi
        "$@" > "$log" 2>&1 3>&-
    )
}

# floor_of NAME: the least count of a part.
floor_of() {
    sed -n "s/^$1: \([1-9][0-9]*\)\$/\1/p" "$FLOORS"
}

# judge NAME LOG STATUS GOOD BAD: how many failures a part has, with that of its end, of its skips and of its floor.
judge() {
    local name=$1 log=$2 status=$3 good=$4 bad=$5 floor
    floor=$(floor_of "$name")
    note_skips "$log" || bad=$((bad + 1))
    if [ "$bad" -gt 0 ]; then
        echo "$bad"
    elif [ "$status" -ne 0 ]; then
        note "$name ended with status $status"
        echo 1
    elif [ -z "$floor" ]; then
        note "$name has no floor in $FLOORS"
        echo 1
    elif [ "$good" -lt "$floor" ] && ! grep -q '^skipped: ' "$log"; then
        note "$name passed $good, and $FLOORS has $floor as its least count"
        echo 1
    else
        echo 0
    fi
}

# tell LINE: shows a line at once, and not within what another part says.
tell() {
    (
        flock 9
        echo "gate: $(date +%T) $1"
    ) 9> "$work/lock" >&3
}

# last_minutes NAME: how many minutes a part, or the whole, took in the last whole run; nothing if it had no such part.
last_minutes() {
    [ ! -f "$LAST_RUN" ] || sed -nE "s/^gate: $1: .* processor minutes, ([0-9.]+) minutes\$/\1/p" "$LAST_RUN" | tail -n 1
}

# tell_begin NAME: says that a part begins, and how long it took last time.
tell_begin() {
    local last
    last=$(last_minutes "$1")
    tell "$1 begins${last:+ (it took $last minutes in the last whole run)}"
}

# tell_left NAME: says that a part has ended, how many have, which ones run, and how long that may take by the last whole run.
tell_left() {
    local whole running
    whole=$(last_minutes whole)
    running=$(find "$work/running" -type f -printf '%f\n' | sort | paste -s -d , | sed 's/,/, /g')
    whole=$(awk -v whole="${whole:-0}" -v seconds="$SECONDS" 'BEGIN { left = whole - seconds / 60; if (left > 0) printf "; some %.0f minutes are left by the last whole run", left }')
    tell "$1 has ended: $(wc -l < "$work/counts") of ${#PARTS[@]} parts after $(minutes "$SECONDS") minutes$whole; running: ${running:-none}"
}

# show LOG LINE: shows what a part said, unless that was shown, and its line.
show() {
    (
        flock 9
        [ -n "${is_shown:-}" ] || cat "$1"
        echo "$2"
    ) 9> "$work/lock" >&3
}

# part NAME WORDS COMMAND..: runs the command, whose last line is 'N WORDS, M failed'. A command that exits badly and reports no failure
# counts as a failure. So does one that passes less than its floor and skips nothing.
part() {
    local name=$1 words=$2 log="$work/log of $1" began=$SECONDS began_used status good bad line
    shift 2
    read_used
    began_used=$used
    : > "$log"
    : > "$work/running/$name"
    tell_begin "$name"
    run_part "$name" "$log" "$@"
    status=$?
    rm -f "$work/running/$name"
    read_used
    read -r good bad <<< "$(sed -nE "s/^([0-9]+) ${words}, ([0-9]+) failed\$/\1 \2/p" "$log" | tail -n 1)"
    good=${good:-0}
    bad=$(judge "$name" "$log" "$status" "$good" "${bad:-0}")
    line="gate: $name: $good passed, $bad failed, $(minutes $((used - began_used))) processor minutes, $(minutes $((SECONDS - began))) minutes"
    echo "$line" >> "$work/notes"
    [ "$bad" -eq 0 ] || note_failure "$log"
    show "$log" "$line"
    # (others wait for this line)
    echo "$name|$good|$bad|$(grep -c '^skipped: ' "$log")" >> "$work/counts"
    tell_left "$name"
}

# await_count NAME: waits until a part has ended.
await_count() {
    until grep -q "^$1|" "$work/counts"; do
        sleep 3
    done
}

# start GROUP..: runs these functions at the same time, each in a shell of its own, which counts only its own minutes.
start() {
    local it
    for it in "$@"; do
        "$it" > "$work/output of $it" 2>&1 &
        groups+=($!)
    done
}

# find_marked MARK: sets `found` to the processes whose surroundings have the mark, but for the gate's own shell and the one that calls this.
find_marked() {
    local file
    found=()
    # (grep itself has none)
    while read -r file; do
        file=${file#/proc/}
        file=${file%/environ}
        [ "$file" -eq $$ ] || [ "$file" -eq "$BASHPID" ] || found+=("$file")
    done < <(exec env -i grep -lszxF -e "$1" /proc/[0-9]*/environ)
}

# note_processes NAME: notes the processes of a part, the youngest ones last, and for how many seconds each has run.
note_processes() {
    local found
    find_marked "GATE_PART=$GATE_RUN $1"
    [ "${#found[@]}" -eq 0 ] || ps -o etimes=,args= --sort=-etimes -p "${found[*]}" | tail -n 15 | cut -c 1-200 | sed 's/^/gate: it ran: /' >> "$work/notes"
}

# end_marked MARK: ends these processes.
end_marked() {
    local signal tries found
    for signal in TERM KILL; do
        for ((tries = 0; tries < 6; tries++)); do
            find_marked "$1"
            [ "${#found[@]}" -gt 0 ] || return 0
            kill -s "$signal" "${found[@]}" 2> /dev/null
            sleep 0.5
        done
    done
}

# set_up: sets `has_all` to whether everything is installed. Counts a failure if that failed on a machine where it could have been done. An
# installation may start a server, which gets a file and none of the gate's streams, and not its mark: it goes on when the gate has ended.
set_up() {
    local status log="$work/log of setup"
    : > "$work/running/setup"
    env -u GATE_RUN GATE_PART="$GATE_RUN setup" "$@" > "$log" 2>&1 3>&- &
    wait $!
    status=$?
    rm -f "$work/running/setup"
    cat "$log"
    case $status in
        0) has_all=yes ;;
        3) note "not everything could be installed, without root or without a registry" ;;
        *)
            note "$1 failed with status $status, as root and with a registry: $(tail -n 1 "$log")"
            note_failure "$log"
            echo "setup|0|1|0" >> "$work/counts"
            ;;
    esac
}

# count_processors: how many processors there are, or for how many a control group gives time, if these are less.
count_processors() {
    local count quota period
    count=$(nproc)
    if [ -r /sys/fs/cgroup/cpu.max ] && read -r quota period < /sys/fs/cgroup/cpu.max && [ "$quota" != max ]; then
        quota=$(((quota + period - 1) / period))
        count=$((quota < count ? quota : count))
    fi
    echo "$count"
}

# free_memory: the memory in MB that is free, or that a control group allows, if that is less.
free_memory() {
    local free file limit
    free=$(awk '/^MemAvailable:/ { printf "%d", $2 * 1024 / 1e6 }' /proc/meminfo)
    for file in /sys/fs/cgroup/memory.max /sys/fs/cgroup/memory/memory.limit_in_bytes; do
        if [ -r "$file" ] && read -r limit < "$file" && [ "$limit" != max ] && [ $((limit / 1000000)) -lt "$free" ]; then
            free=$((limit / 1000000))
        fi
    done
    echo "$free"
}

# free_disk: the free disk in MB, of this folder or of the temporary files, whichever has less.
free_disk() {
    df --output=avail -m . "$work" | tail -n +2 | sort -n | head -n 1 | tr -d ' '
}

# tell_shortage WHAT: says that less than 1 GB of it is left. Then any part may fail, each with another message.
tell_shortage() {
    echo "gate: $1: less than 1 GB was left at $(date +%T), so what failed then may have failed for that" | tee -a "$work/notes" >&3
}

# look_at_machine: tells the first shortage of disk, and that of memory.
look_at_machine() {
    if [ "$(free_disk)" -lt "$least_disk" ]; then
        least_disk=-1
        tell_shortage disk
    fi
    if [ "$(free_memory)" -lt "$least_memory" ]; then
        least_memory=-1
        tell_shortage memory
    fi
}

# Sets `step` to the milliseconds of a processor that each process had in the last two seconds, if as many wanted one as the machine's load says:
# 2000 on a machine that has enough.
read_step() {
    local load most=$((100 * processors))
    read -r load _ < /proc/loadavg
    load=$((10#${load/./}))
    step=$((load > most ? 2000 * most / load : 2000))
}

# end_late_parts CLOCK: ends each part whose time is over. `seen` has when each was first seen.
end_late_parts() {
    local file name most
    for file in "$work"/running/*; do
        name=${file##*/}
        most=${MOST_OF[$name]:-$MOST_OF_PART}
        if [ -e "$file" ] && [ $(($1 - ${seen[$name]:=$1})) -ge $((1000 * most)) ]; then
            seen[$name]=$1
            echo "gate: $name: its limit of $most s is over, and its processes are ended" | tee -a "$work/notes" >&3
            note_processes "$name"
            end_marked "GATE_PART=$GATE_RUN $name"
        fi
    done
}

# watch: looks at the machine, and ends the part, or the whole, whose time is over. Its clock goes slower on a machine with more work than
# processors, so that the limits of a busy one are longer. It goes on until the gate ends it, so that no other process has its number.
watch() {
    local clock=0 ticks=0 step least_disk=1000 least_memory=1000
    local -A seen=()
    while sleep 2 && [ -d "$work" ]; do
        read_step
        clock=$((clock + step))
        [ $((ticks++ % 3)) -ne 0 ] || look_at_machine
        end_late_parts "$clock"
        if [ "$clock" -ge $((1000 * MOST_OF_ALL)) ]; then
            : > "$work/is over"
            kill -s TERM $$
            clock=0
        fi
    done 2> /dev/null
}

# killed_for_memory: how many processes the system has killed since its start because memory ran out.
killed_for_memory() {
    awk '/^oom_kill / { found = $2 } END { print found + 0 }' /proc/vmstat
}

# tell_end: the last lines: what was noted, the time, and the counts of parts. A part in which something was skipped is no part that passed.
tell_end() {
    note_missing_parts
    read_used
    cat "$work/notes"
    echo "gate: whole: $(minutes "$used") processor minutes, $(minutes "$SECONDS") minutes"
    awk -F '|' '
        { if ($3 > 0) failed++; else if ($4 > 0) skipped++; else passed++ }
        END { printf "parts: %d passed, %d failed, %d skipped\n", passed, failed, skipped; exit (failed > 0 || passed == 0) }' "$work/counts"
}

# end_early SIGNAL NUMBER: what a gate does that must end: it tells what the parts said that run, then the last lines, and ends all processes.
end_early() {
    local why="it got SIG$1" file name
    trap '' TERM INT HUP
    [ ! -e "$work/is over" ] || why="its limit of $MOST_OF_ALL s is over"
    kill -s KILL "${watcher:-}" "${groups[@]}" 2> /dev/null
    for file in "$work"/running/*; do
        name=${file##*/}
        if [ -e "$file" ]; then
            echo "gate: $name runs, and has said:"
            tail -n 1000 "$work/log of $name"
            note "$name was ended"
            note_processes "$name"
            note_failure "$work/log of $name"
            echo "$name|0|1|0" >> "$work/counts"
        fi
    done
    note "ended early: $why"
    tell_end
    [ ! -e "$work/running/setup" ] || end_marked "GATE_PART=$GATE_RUN setup"
    end_marked "GATE_RUN=$GATE_RUN"
    exit $((128 + $2))
}

# finish: waits for what was started, shows what it said outside of parts, and tells the end. Returns 1 if a part failed.
finish() {
    local file status
    wait "${groups[@]}"
    for file in "$work"/output\ of\ *; do
        [ ! -s "$file" ] || cat "$file"
    done
    [ -z "${watcher:-}" ] || kill "$watcher"
    tell_end
    status=$?
    end_marked "GATE_RUN=$GATE_RUN"
    return "$status"
}
