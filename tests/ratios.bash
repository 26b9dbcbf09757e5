#!/bin/bash
# Tries the same work in plain Rust, tests/plain: its unit tests say that it is the same manager, by the examples'
# bytes and verdicts. Then `bin/ratios --quick` prints its table, where a stand-in for irp_bench prints the times of
# this side. IRPX names the program irpx. Where there is no cargo, the table has this side alone. Each failure has a
# line of its own. Ends with status 0 where all was as expected, else with 1.
set -u
cd "$(dirname "$(readlink -f "$0")")" || exit 1
if ! command -v python3 >/dev/null; then
    echo 'passed over, for want of Python: times beside plain Rust'
    exit 0
fi
# shellcheck source=parts/counting.bash
. ./parts/counting.bash

# Runs bin/ratios with the given words and the stand-in. Keeps its output, its errors and its status.
run() {
    IRP_BENCH=$room/bench timeout 300 ../bin/ratios "$@" >"$room/output" 2>"$room/errors"
    status=$?
}

# Whether the table has a row that begins with this text.
has() { grep -qF -- "$1" "$room/output"; }

# The stand-in: each of its lines has the form of irp_bench's.
cat >"$room/bench" <<'END'
#!/bin/sh
case $1 in
locks) told='acquire and release, threads 1: 5000000.0 ns; fetch-add and fetch-sub: 9.5 ns; ratio 526315.8' ;;
calls) told='a send, devices 4: 286.4 ns; recorded: 1055.2 ns; ratio 0.27' ;;
write) told='write_transcript, entries 100000: 536.3 ns, 624.0 MB a second; serde_json alone: 1.0 ns; ratio 9' ;;
read) told='nothing' ;;
*) exit 3 ;;
esac
echo "irp_bench: $told" >&2
END
chmod +x "$room/bench"

CARGO=$room/none run --quick locks calls
meets 'no cargo: status' [ "$status" -eq 0 ]
meets 'no cargo: it is told' grep -q 'there is no cargo' "$room/errors"
meets 'no cargo: a lock' has '| acquire and release, 1 / 4 threads | 5,000,000 / - | | | |'
meets 'no cargo: a send' has '| a send through 1 / 4 / 16 / 32 devices, not recorded | - / 286 / - / - | | | 1.1 / 1.1 / 1.0 / 1.0 |'
meets 'no cargo: a recorded send' has '| the same, recorded | - / 1,055 / - / - | | | |'
CARGO=$room/none run --quick read
meets 'no time: status' [ "$status" -eq 1 ]
CARGO=$room/none run --quick slots
meets 'a program that fails: status' [ "$status" -eq 1 ]

# Another clone whose programs took less: by a tenth and more for a send, which two rows have, by less than that for a
# recorded one.
mkdir -p "$room/clone/crates/irp_bench/out"
sed 's/286\.4/250.0/; s/1055\.2/1000.0/' "$room/bench" >"$room/clone/crates/irp_bench/out/irp_bench"
chmod +x "$room/clone/crates/irp_bench/out/irp_bench"
CARGO=$room/none run --quick --before "$room/clone" calls
meets 'slower than before: status' [ "$status" -eq 3 ]
meets 'slower than before: a send' has '| 1.1 / 1.1 / 1.0 / 1.0 | - / 1.15 slower / - / - |'
meets 'as before: a recorded send' has '| - / 1,055 / - / - | | | | - / 1.06 / - / - |'
meets 'slower than before: told' grep -q '2 rows are slower than before by more than a tenth' "$room/errors"
CARGO=$room/none run --quick --before "$room/none" calls
meets 'no programs before: status' [ "$status" -eq 1 ]
run --quick sends
meets 'another word: status' [ "$status" -eq 4 ]

if command -v cargo >/dev/null; then
    (cd plain && cargo test --offline --quiet >"$room/tests" 2>&1) || cat "$room/tests"
    meets 'unit tests of plain Rust' grep -q '^test result: ok\. [1-9][0-9]* passed; 0 failed' "$room/tests"
    run --quick locks calls write files orders
    meets "status $status: $(head -c 300 "$room/errors")" [ "$status" -eq 0 ]
    meets 'rows' [ "$(grep -c '^| ' "$room/output")" -eq 15 ]
    # A pair of plain Rust takes less than a hundredth of what the stand-in tells, and more than none.
    times='[0-9.,]+( / [0-9.,]+)*'
    row="\| acquire and release, 1 / 4 threads \| 5,000,000 / - \| $times \| [0-9]{3,}\.[0-9] / - \| \|"
    meets 'a lock' grep -qxE "$row" "$room/output"
    row="\| \`irpx check\` of [0-9]+ MB, [0-9/ ]+ processors, in ms \| $times \| $times \| $times \| 1\.0( / -)+ \|"
    meets 'both judge a file' grep -qxE "$row" "$room/output"
else
    echo 'passed over, for want of cargo: the same work in plain Rust'
fi
finish 'checks of times beside plain Rust'
