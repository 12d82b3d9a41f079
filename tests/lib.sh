# shellcheck shell=sh
# What the scripts of the tests share. A script sets $suite, its name where something is skipped, and reads this file by
# its path; it ends with `finish`. There is a scratch folder $scratch, which goes away with the script.
passed=0
failed=0
scratch=$(mktemp -d) || exit 2
trap 'rm -rf "$scratch"' EXIT

# report NAME COMMAND..: runs the command in a shell of its own and counts it, or the tests that it counted itself in a last
# line 'N passed, M failed'; where it fails, shows what it said.
report() {
    reported=$1
    shift
    ("$@") > "$scratch/log" 2>&1
    status=$?
    sum=$(sed -n '$s/^\([0-9]*\) passed, \([0-9]*\) failed$/\1 \2/p' "$scratch/log")
    : "${sum:=$((status == 0)) 0}"
    [ $status -eq 0 ] || [ "${sum#* }" -gt 0 ] || sum="${sum% *} 1"
    passed=$((passed + ${sum% *}))
    failed=$((failed + ${sum#* }))
    if [ "${sum#* }" -eq 0 ]; then
        echo "passed   $reported"
    else
        echo "FAILED   $reported"
        sed 's/^/         /' "$scratch/log" | tail -40
    fi
}

# skip WHAT: a part that cannot run here; whoever calls may collect them in the file $CURLEW_SKIPPED.
skip() {
    echo "skipped  $1"
    [ -z "${CURLEW_SKIPPED:-}" ] || echo "${suite:?}: $1" >> "$CURLEW_SKIPPED"
}

have() {
    command -v "$1" > /dev/null 2>&1
}

# all_there FOLDER FILE..
all_there() {
    folder=$1
    shift
    for file; do
        [ -f "$folder/$file" ] || { echo "missing: $file"; return 1; }
    done
}

# The names of the calls that a header declares, one to a line: calls_of_header HEADER
calls_of_header() {
    sed -n 's/^uint32_t \(curlew_[a-z_]*\)(.*/\1/p' "$1" | sort
}

# The last line, and the exit status.
finish() {
    echo "$passed passed, $failed failed"
    [ "$failed" -eq 0 ] && [ "$passed" -gt 0 ]
}
