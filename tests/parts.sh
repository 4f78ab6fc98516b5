# Sourced by .ci/run and tests/run: runs the parts of a test, shows what each prints, and adds up what they count.
# shellcheck shell=bash

passed=0 failed=0
summary=''

# A row of the closing table.
noted() { # NAME WORDS
    summary+=$(printf '  %-26s %s' "$1" "$2")$'\n'
}

added() { # NAME PASSED FAILED SECONDS
    passed=$((passed + $2)) failed=$((failed + $3))
    noted "$1" "$(printf '%5d passed %3d failed %5d s' "$2" "$3" "$4")"
}

# Starts a part, which then runs in the background. It is shown and counted where its name comes again, with no
# command.
declare -A logs=() processes=()
start() { # NAME COMMAND..
    local name=$1 log
    shift
    log=$(mktemp) || exit 2
    set -m
    (
        began=$SECONDS
        "$@"
        status=$?
        printf '%d\n' $((SECONDS - began)) >"$log.seconds"
        exit "$status"
    ) </dev/null >"$log" 2>&1 &
    set +m
    logs[$name]=$log processes[$name]=$!
}

# Nothing that was started outlives the run: each is a process group of its own.
stop_started() {
    local name
    for name in "${!processes[@]}"; do
        kill -- "-${processes[$name]}"
    done 2>/dev/null
    for name in "${!logs[@]}"; do
        rm -f "${logs[$name]}" "${logs[$name]}.seconds"
    done
}
trap stop_started EXIT

# Runs a part and shows what it prints, or waits for one that was started. Leaves its status, its seconds and its last
# line.
ran() { # NAME [COMMAND..]
    local name=$1 began=$SECONDS log
    shift
    printf '\n== %s\n' "$name"
    if [ -n "${logs[$name]:-}" ]; then
        log=${logs[$name]}
        wait "${processes[$name]}"
        status=$?
        unset "processes[$name]"
        cat "$log"
        seconds=$(cat "$log.seconds" 2>/dev/null || echo $((SECONDS - began)))
    else
        log=$(mktemp) || exit 2
        "$@" </dev/null | tee "$log"
        status=${PIPESTATUS[0]} seconds=$((SECONDS - began))
    fi
    last=$(tail -n 1 "$log")
    rm -f "$log" "$log.seconds"
}

# A part whose last line is 'N passed, M failed'. One that ends without that line, with another status than it says, or
# having counted nothing, counts as one failed.
counted() { # NAME [COMMAND..]
    local name=$1 status seconds last good=0 bad=0
    ran "$@"
    if [[ $last =~ ^([0-9]+)\ passed,\ ([0-9]+)\ failed$ ]]; then
        good=$((10#${BASH_REMATCH[1]})) bad=$((10#${BASH_REMATCH[2]}))
    else
        printf '%s FAILED: its last line counts nothing (status %s)\n' "$name" "$status"
        bad=1
    fi
    if [ "$bad" -eq 0 ] && [ "$status" -ne 0 ]; then
        printf '%s FAILED: it counts no failure and ends with status %s\n' "$name" "$status"
        bad=1
    elif [ $((good + bad)) -eq 0 ]; then
        printf '%s FAILED: it tested nothing\n' "$name"
        bad=1
    fi
    added "$name" "$good" "$bad" "$seconds"
}

# A part that is one test, judged by its status.
single() { # NAME [COMMAND..]
    local name=$1 status seconds last
    ran "$@"
    if [ "$status" -eq 0 ]; then
        added "$name" 1 0 "$seconds"
    else
        printf '%s FAILED\n' "$name"
        added "$name" 0 1 "$seconds"
    fi
}

# What is no test, and counts only where it fails.
needed() { # NAME [COMMAND..]
    local name=$1 status seconds last
    ran "$@"
    if [ "$status" -eq 0 ]; then
        added "$name" 0 0 "$seconds"
    else
        printf '%s FAILED\n' "$name"
        added "$name" 0 1 "$seconds"
        return 1
    fi
}

# A part that cannot run yet.
left_out() { # NAME WHY
    printf '\n== %s\nleft out: %s\n' "$1" "$2"
    noted "$1" "left out: $2"
}

# The table, and the closing line.
closing() {
    printf '\n%s  %-26s %29d s\n' "$summary" total "$SECONDS"
    printf '%d passed, %d failed\n' "$passed" "$failed"
    [ "$failed" -eq 0 ] && [ "$passed" -gt 0 ]
}
