#!/usr/bin/env bash
# tests/harness.bash: how scripts in bash count what passed and failed. A script sets `suite`, the word that its lines begin with, reads this
# file, counts by `try`, `count` and `tried`, and ends by `finish WORDS`. It gets a folder `work`, which goes when it ends, and the file `told` with what the
# last command said, which is another one in each lane. Files that begin as that one are the lane's, too.
# shellcheck disable=SC2034,SC2154  # variables of the script
work=$(mktemp -d) || exit 2
trap 'rm -rf "$work"' EXIT
: > "$work/.again"
passed=0
failed=0
told=$work/told
# The longest time of a command that is no function of the shell: only what hangs takes as long.
most_seconds=5400

# tried STATUS WORDS: counts a test, and names one that failed.
tried() {
    if [ "$1" -eq 0 ]; then
        passed=$((passed + 1))
    else
        failed=$((failed + 1))
        echo "$suite: $2 failed"
    fi
}

# ended STATUS WORDS: counts a command whose output is in $told. Shows the output if it failed, otherwise what it skipped.
ended() {
    if [ "$1" -eq 0 ]; then
        grep '^skipped: ' "$told"
    else
        tail -n 400 "$told"
    fi
    tried "$1" "$2"
}

# run_told COMMAND..: runs it, with what it says in the file $told, and notes for how many seconds it ran on a processor, if these are some.
run_told() {
    local status TIMEFORMAT='%0U %0S' limit=()
    [ "$(type -t "$1")" != file ] || limit=(timeout "$most_seconds")
    { time "${limit[@]}" "$@" > "$told" 2>&1; } 2> "$told.took"
    status=$?
    return "$status"
}

# run_twice WORDS COMMAND..: runs it. A test that failed may have lost a race with a busy machine, so two of a suite get a second try. It is no function,
# did not take too long, and no sanitizer has complained of it: that fault stays one.
run_twice() {
    local words=$1 status
    shift
    run_told "$@"
    status=$?
    if [ "$status" -eq 0 ] || [ "$status" -eq 124 ] || [ "$(type -t "$1")" != file ] || [ "$(wc -l < "$work/.again")" -ge 2 ] ||
        grep -qE 'Sanitizer|runtime error: |^==[0-9]+== ' "$told"; then
        return "$status"
    fi
    echo "$words" >> "$work/.again"
    tail -n 400 "$told"
    run_told "$@" || return
    echo "$suite: second try: $words failed, and passed then"
}

tell_cost() {
    tail -n 1 "$told.took" | awk -v words="$suite: $1" '$1 + $2 >= 2 { print words ": " $1 + $2 " s of a processor" }'
}

# try WORDS COMMAND..: runs the command, shows what it said if it fails, otherwise what it skipped, and counts it.
try() {
    local words=$1 status
    shift
    run_twice "$words" "$@"
    status=$?
    tell_cost "$words"
    ended "$status" "$words"
}

# count WORDS COMMAND..: the same for a command whose last line is 'N .. passed, M failed': each counts. One that counts nothing failed.
count() {
    local words=$1 good bad
    shift
    run_twice "$words" "$@"
    tell_cost "$words"
    read -r good bad <<< "$(sed -nE 's/^([0-9]+) ([a-z ]+ )?passed, ([0-9]+) failed$/\1 \3/p' "$told" | tail -n 1)"
    grep "^$suite: " "$told"
    if [ -z "$bad" ] || [ "$((good + bad))" -eq 0 ]; then
        tail -n 400 "$told"
        tried 1 "$words"
        return
    fi
    if [ "$bad" -eq 0 ]; then
        grep '^skipped: ' "$told"
    else
        tail -n 400 "$told"
    fi
    passed=$((passed + good))
    failed=$((failed + bad))
}

# has COMMAND WORDS: whether the command is here. If not, says that the words are skipped.
has() {
    command -v "$1" > "$told.found" || { echo "skipped: $1: $2"; return 1; }
}

# lane NAME FUNCTION..: runs these one after the other, and leaves their counts. It wants a shell of its own: `lane one first second &`.
lane() {
    local name=$1 it
    shift
    told=$work/told-$name
    passed=0
    failed=0
    for it in "$@"; do
        "$it"
    done
    echo "$passed $failed" > "$work/counts-$name"
}

# together NAME..: waits for all lanes, and adds their counts to those of this shell. One that left none has failed.
together() {
    local it good bad
    wait
    for it in "$@"; do
        good=0
        bad=1
        if [ -f "$work/counts-$it" ]; then
            read -r good bad < "$work/counts-$it"
        else
            echo "the lane $it failed: it left no count"
        fi
        passed=$((passed + good))
        failed=$((failed + bad))
    done
}

# finish WORDS: the last line. The script ends by it: its status is 1 if something failed, or nothing passed.
finish() {
    echo "$passed $1 passed, $failed failed"
    [ "$failed" -eq 0 ] && [ "$passed" -gt 0 ]
}
