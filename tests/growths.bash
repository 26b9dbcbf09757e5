#!/bin/bash
# Refuses each request for memory of the program irp_tests, one a run, in each of its scenarios: calls of the library's,
# with what they have to answer. A run has to print what it prints when nothing is refused, but for its last line, which
# tells where the refusal fell. Each call that takes memory has to have met one. Each failure has a line of its own.
# IRP_TESTS names the program; without it, it is the proved one. Ends with status 0 where all was as expected, else with
# 1. It passes over all where there is no such program, or no C compiler.
set -u
cd "$(dirname "$(readlink -f "$0")")" || exit 1
program=${IRP_TESTS:-../crates/irp_tests/out/irp_tests}
if [ ! -x "$program" ] || ! command -v cc >/dev/null; then
    echo 'passed over, for want of a proved irp_tests or of a C compiler: each growth of the library refused'
    exit 0
fi
room=$(mktemp -d) || exit 1
trap 'rm -rf "$room"' EXIT
cc -shared -fPIC -o "$room/refuse.so" refuse.c || exit 1

# The calls in which each request for memory is refused. `run_workers` isn't among them.
calls='AnswerTable::add
AnswerTable::add_cancel
AnswerTable::add_dispatch
AnswerTable::add_driver
FixedTables::copied
FixedTables::told_by
Shared::call
Shared::finish_taken
Store::add
Store::add_cancel
Store::add_dispatch
Store::add_driver
irp_remove::open
irp_slots::open
irp_judge::check
irp_shared::open
irp_shared::open_with_limit
read_again
read_script
read_transcript
script_seats
write_transcript'

# Notes a failure.
fail() {
    echo "failed: growths: $*" >>"$room/failed"
}

# Refuses the requests of the scenario $1, the first, then the second, until a run meets no refusal. Notes the last line of
# each run that met one.
refuse_each() {
    local number=1 whole output
    whole=$'\n'$("$program" "$1") || fail "$1: status $?"
    [ "${whole##*$'\n'}" = 'refused: none' ] || fail "$1: something is refused where nothing was to be"
    while :; do
        output=$'\n'$(REFUSE=$number REFUSED=$room/$1.met LD_PRELOAD=$room/refuse.so "$program" "$1") ||
            fail "$1, request $number: status $?, ${output##*$'\n'}"
        [ "${output%$'\n'*}" = "${whole%$'\n'*}" ] || fail "$1, request $number: other lines than without a refusal"
        [ -e "$room/$1.met" ] || break
        rm "$room/$1.met"
        echo "${output##*$'\n'}" >>"$room/told"
        number=$((number + 1))
    done
}

# How many of the noted last lines are as $1 says.
count() {
    grep -c "^refused: $1" "$room/told"
}

touch "$room/failed" "$room/told"
for scenario in $("$program"); do
    refuse_each "$scenario" &
done
wait
for call in $calls; do
    grep -q ", $call$" "$room/told" || fail "$call: it met no refusal"
done
cat "$room/failed"
echo "growths: $("$program" | wc -l) scenarios, $(wc -l <"$room/told") requests refused: $(count step) in a call," \
    "$(count set-up) in what the program takes for itself, $(count none) without notice; $(wc -l <"$room/failed") wrong"
[ ! -s "$room/failed" ]
