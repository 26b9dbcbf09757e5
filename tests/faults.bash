#!/bin/bash
# Shows that `irp_words faults` tells of each script of the folder `faults` what stands beside it, in the file `.expected`:
# line, column, key, what it may be and a remedy, or a warning; and that it says of the examples' scripts only what their
# transcripts bear out. IRP_WORDS names the program; without it, it is the one that bin/irp_words runs. Each failure has a
# line of its own. Ends with status 0 where all was as expected, else with 1.
set -u
cd "$(dirname "$(readlink -f "$0")")" || exit 1
if [ -z "${IRP_WORDS:-}" ] && [ ! -d ../crates/irp_words ]; then
    echo 'passed over, for want of irp_words: faults told'
    exit 0
fi
irp_words=${IRP_WORDS:-$(../bin/program irp_words quick)} || exit 1
# shellcheck source=parts/counting.bash
. ./parts/counting.bash

# Checks what is told of the script $1, and the status: 1 where a fault is told.
tells() {
    local status expected=0
    grep -qv '^warning: ' "${1%.script}.expected" && expected=1
    "$irp_words" faults <"$1" >"$room/told" 2>"$room/errors"
    status=$?
    meets "$1: status $status, not $expected" [ "$status" -eq "$expected" ]
    meets "$1: what is told" cmp -s "${1%.script}.expected" "$room/told"
    meets "$1: standard error" [ ! -s "$room/errors" ]
}

for script in faults/*.script; do tells "$script"; done

# No example has a fault, and a step of theirs is warned of only where it is refused.
for script in ../examples/*/*.script; do
    "$irp_words" faults <"$script" >"$room/told"
    meets "$script: a fault is told" [ $? -eq 0 ]
    [ -e "${script%.script}.transcript" ] || continue
    meets "$script: a warning" python3 ./warned.py "$script" "${script%.script}.transcript" "$room/told"
done

# On a terminal bin/irpx tells the same behind its own line.
../bin/program irpx quick >"$room/program" || exit 1
for script in faults/two_faults faults/a_comment; do
    python3 ./on_a_terminal.py "$script.script" ../bin/irpx run >"$room/told"
    meets "$script: status of bin/irpx" [ $? -eq 1 ]
    ../bin/irpx run <"$script.script" 2>&1 | cat - "$script.expected" >"$room/expected"
    meets "$script: bin/irpx on a terminal" cmp -s "$room/expected" "$room/told"
done

finish 'faults told'
