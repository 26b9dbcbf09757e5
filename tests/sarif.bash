#!/bin/bash
# Tries `drivers/run --sarif`: a driver that completes its packets twice gets one result, at the line of the second call,
# with the line of the first one beside it; so it is in every order. A clean driver gets none. Each failure has a line of its
# own, and the last line is `N passed, M failed`. Ends with status 0 where nothing failed, else with 1.
set -u
cd "$(dirname "$(readlink -f "$0")")" || exit 1
tests=$PWD
IRPX=${IRPX:-$(../bin/program irpx quick)} || exit 1
export IRPX
if ! command -v python3 >/dev/null || ! command -v "${CC:-cc}" >/dev/null; then
    echo "ok: SARIF: there is no Python or no C compiler here"
    exit 0
fi
room=$(mktemp -d) || exit 1
trap 'rm -rf "$room"' EXIT
export WDM_OUT=$room/out
passed=0
failed=0

# Counts a check, whose name is $1; the rest is a command that prints nothing and succeeds where the check is met.
meets() {
    local name=$1 said
    shift
    said=$("$@" 2>&1) && [ -z "$said" ] && passed=$((passed + 1)) && return
    failed=$((failed + 1))
    printf 'failed: %s\n%s\n' "$name" "${said:0:800}"
}

# Prints the line of a file that has the text $1.
line_of() {
    grep -nF -- "$1" "$2" | head -n 1 | cut -d : -f 1
}

# Runs a driver with these words, from its folder. Keeps the file of SARIF, and checks the exit status $1.
run() {
    local wanted=$1 ended
    shift
    rm -f "$room/out.sarif"
    (cd "$room/source" && "$tests/../drivers/run" --sarif "$room/out.sarif" "$@" >"$room/said" 2>&1)
    ended=$?
    meets "status of $*: $(tail -n 3 "$room/said")" [ "$ended" -eq "$wanted" ]
}

mkdir "$room/source"
right=../lessons/01_first_dispatch/answer/driver.c
twice=$room/source/twice.c
sed 's|^    IoCompleteRequest(Irp, IO_NO_INCREMENT);|&\n    IoCompleteRequest(Irp, 1); /* again */|' "$right" >"$twice"
cp "$right" "$room/source/right file.c"
first=$(line_of 'IoCompleteRequest(Irp, IO_NO_INCREMENT)' "$twice")
again=$(line_of '/* again */' "$twice")

run 1 twice.c
meets 'a packet that is completed twice' python3 sarif.py "$room/out.sarif" CompletedTwice twice.c "$again" "completed before at=$first"
run 1 --every-order --minutes 0.2 twice.c
meets 'the same in every order' python3 sarif.py "$room/out.sarif" CompletedTwice twice.c "$again" "completed before at=$first"
run 0 'right file.c'
meets 'a clean driver has no result' grep -qF '"results": []' "$room/out.sarif"
run 1 --sarif "$room/other.sarif" twice.c
meets 'the last --sarif counts' test -s "$room/other.sarif"
(cd "$room/source" && "$tests/../drivers/run" --sarif "$room/nothing/out.sarif" 'right file.c' >"$room/said" 2>&1)
meets 'a folder that is not there is an error' [ $? -ge 2 ]
meets 'a folder that is not there is told in a line' grep -qE '^irp drive: .*nothing/out.sarif' <(tail -n 1 "$room/said")

# What crashes has no line of the host's fault: the file of the driver stands there.
sed 's|^    Irp->IoStatus.Status = STATUS_SUCCESS;|&\n    *(volatile int *)8 = 0;|' "$right" >"$room/source/crashes.c"
run 1 crashes.c
meets 'a crash has a result in the driver' grep -q '"uri": "crashes.c"' "$room/out.sarif"
echo "$passed passed, $failed failed"
[ "$failed" -eq 0 ]
