#!/bin/bash
# Shows that `irp_orders` tells the outcomes of the races in examples/orders as they were worked out, judges conditions on
# them and whether they are right, and ends as it should where it is refused or a bound is met; then that it tells the same orders as the second
# reading's model, and that runs by several workers print no others (orders.py).
#
# IRP_ORDERS and IRPX name the programs; without them, they are those that bin/irp_orders and bin/irpx run. COUNT is how many
# scripts are made by chance and SEED their seed, RUNS how often each race is run.
# Each failure has a line of its own. Ends with status 0 where all was as expected, else with 1.
set -u
cd "$(dirname "$(readlink -f "$0")")" || exit 1
irp_orders=${IRP_ORDERS:-$(../bin/program irp_orders quick)} || exit 1
irpx=${IRPX:-$(../bin/program irpx quick)} || exit 1
# shellcheck source=parts/counting.bash
. ./parts/counting.bash
examples=../examples/orders
case $irp_orders in *.unproved) count=${COUNT:-10} runs=${RUNS:-5} ;; *) count=${COUNT:-300} runs=${RUNS:-40} ;; esac

# Runs irp_orders with the given words. Keeps its output, its errors and its status. Standard input is what stands at the
# call.
run() {
    timeout 300 "$irp_orders" "$@" >"$room/output" 2>"$room/errors"
    status=$?
}

# Checks that the last run ended with the status $2, with the line $3 on standard error, or none, and where $4 is given with
# this first line on standard output.
ended() {
    meets "$1: status $status, not $2" [ "$status" -eq "$2" ]
    meets "$1: standard error $(head -c 200 "$room/errors")" [ "$(cat "$room/errors")" = "$3" ]
    [ $# -lt 4 ] || meets "$1: first line $(head -n 1 "$room/output")" [ "$(head -n 1 "$room/output")" = "$4" ]
}

# The races: the table, from a file and from standard input.
for script in "$examples"/*.script; do
    run "$script"
    ended "$script" 0 ''
    meets "$script: table" cmp -s "${script%.script}.expected" "$room/output"
    run <"$script"
    meets "$script: from standard input" cmp -s "${script%.script}.expected" "$room/output"
done

# Conditions that never hold of a race, and some that do.
while IFS='|' read -r name condition; do
    [ -n "$name" ] || continue
    run --never "$condition" "$examples/$name.script"
    all=$(sed -n '1s/^outcomes: \([0-9]*\), of \([0-9]*\) orders$/never: it holds in none of \2 orders, \1 outcomes/p' "$examples/$name.expected")
    ended "$name, never $condition" 0 '' "$all"
done <<'END'
a_cancel_against_a_completion|live(a) and owner(a) != ended
a_cancel_against_a_completion|reply(1) == done and reply(2) == true
a_cancel_against_a_completion|owner(a) == D0
a_cancel_against_a_completion|owner(a) == device 0 or deleted(D0) or deleted(device 0)
a_cancel_against_a_completion_by_a_slot|reply(2) == done and reply(4) == done
a_cancel_against_a_completion_by_a_slot|not owner(a) == ended
a_removal_against_a_send|reply(4) == STATUS_SUCCESS and reply(5) == DeviceGone
a_removal_against_a_send|deleted(0) and held(lock 0) > 0
a_hand_over_against_a_drain|reply(4) == yes and held(lock 0) > 0
a_reuse_against_a_late_cancel|status(a) == STATUS_CANCELLED and owner(a) != ended
a_cancel_against_a_completion|not made(0) or not made(step 1) or made(2) == false
END
while IFS='|' read -r name condition line; do
    [ -n "$name" ] || continue
    run --never "$condition" "$examples/$name.script"
    ended "$name, never $condition" 2 '' "$line"
done <<'END'
a_lost_pending_mark|reply(1) == NotOwner|it holds in 2 of 3 orders, 2 of 3 outcomes; one of them:
a_cancel_against_a_completion|status(a) == 0xC0000120|it holds in 1 of 3 orders, 1 of 3 outcomes; one of them:
a_cancel_against_a_completion|reply(2) == Ended or reply(2) == false|it holds in 2 of 3 orders, 2 of 3 outcomes; one of them:
a_cancel_against_a_completion|information(a) > 0|it holds in 2 of 3 orders, 2 of 3 outcomes; one of them:
a_cancel_against_a_completion|cancel(a) and status(a) == STATUS_SUCCESS|it holds in 1 of 3 orders, 1 of 3 outcomes; one of them:
a_removal_against_a_send|reply(5) == DeviceGone|it holds in 6 of 71 orders, 1 of 5 outcomes; one of them:
a_hand_over_against_a_drain|held(lock 0) == 1 and removing(lock 0)|it holds in 38 of 143 orders, 1 of 5 outcomes; one of them:
a_hand_over_against_a_drain|reply(5) == not_held and held(0) >= 1|it holds in 38 of 143 orders, 1 of 5 outcomes; one of them:
a_reuse_against_a_late_cancel|reply(4) == true|it holds in 3 of 21 orders, 1 of 5 outcomes; one of them:
a_reuse_against_a_late_cancel|current(a) < 2 and status(a) <= 0|it holds in 15 of 21 orders, 3 of 5 outcomes; one of them:
an_allocation_after_two_frees|reply(5) == NoIrp|it holds in 1 of 1 order, 1 of 1 outcome; one of them:
two_frees_against_an_allocation|reply(3) == NoIrp|it holds in 1 of 5 orders, 1 of 3 outcomes; one of them:
a_look_between_a_reuse_and_its_label|reply(1) == Stale and reply(2) == Stale|it holds in 4 of 15 orders, 1 of 4 outcomes; one of them:
END

# Which steps on conditions are made: the table of docs/RIGHT.md.
while IFS='|' read -r condition status line; do
    run --never "$condition" ../examples/right/a_cancel_by_a_slot.script
    ended "steps on conditions, never $condition" "$status" '' "$line"
done <<'END'
made(2) and made(3)|0|never: it holds in none of 22 orders, 4 outcomes
not made(2) and not made(3) and not made(5)|0|never: it holds in none of 22 orders, 4 outcomes
made(0) == false or made(4) != true|0|never: it holds in none of 22 orders, 4 outcomes
not made(5) and reply(5) != none|0|never: it holds in none of 22 orders, 4 outcomes
made(1)|2|it holds in 7 of 22 orders, 2 of 4 outcomes; one of them:
made(step 2)|2|it holds in 5 of 22 orders, 1 of 4 outcomes; one of them:
made(3) == true|2|it holds in 5 of 22 orders, 1 of 4 outcomes; one of them:
made(5)|2|it holds in 12 of 22 orders, 2 of 4 outcomes; one of them:
not made(1) and reply(1) == none|2|it holds in 15 of 22 orders, 2 of 4 outcomes; one of them:
END

# The order that is shown is a shortest one: its steps by name, as they are answered, and the seats of its atomic steps.
while IFS='|' read -r name condition steps seats; do
    [ -n "$name" ] || continue
    run --never "$condition" "$examples/$name.script"
    told=$(sed -n 's/^    step \([0-9]*\)  seat .*/\1/p' "$room/output" | paste -sd' ')
    meets "$name, never $condition: steps $told" [ "$told" = "$steps" ]
    meets "$name, never $condition: seats" grep -qx "    the seats of its atomic steps: $seats" "$room/output"
done <<'END'
a_cancel_against_a_completion|status(a) == 0xC0000120|2 0 1|1 0 0
a_removal_against_a_send|reply(5) == DeviceGone|0 1 2 3 4 5 6|1 1 1 1 1 0 0 0 0
a_removal_against_a_send|held(lock 0) >= 0|4 5 6 0 1 2 3|0 0 0 1 1 1 1 1
END
run --never 'status(a) == 0xC0000120' "$examples"/a_cancel_against_a_completion.script
meets 'the shown steps are told as the table tells them' \
    [ -z "$(grep '^    step' "$room/output" | grep -vxFf "$examples"/a_cancel_against_a_completion.expected)" ]
run --ends --never 'status(a) == 0xC0000120' "$examples"/a_cancel_against_a_completion.script
meets 'by ends too' [ "$(grep -c '^    step .* -> ' "$room/output")" -eq 3 ]

# Whether every order is right: the first line, what is wrong with the order that is shown, and in the last line a condition
# that it meets, and no right order: the first step that was refused, else the first label whose packet a device has, else
# the first remove lock that is held. `--never` shows an order that meets it.
while IFS='|' read -r name status line wrongs such; do
    [ -n "$name" ] || continue
    run --right "$examples/$name.script"
    ended "$name, right" "$status" '' "$line"
    told=$(sed -n 's/^wrong: //p' "$room/output" | paste -sd';')
    meets "$name, right: wrong: $told" [ "$told" = "$wrongs" ]
    [ -n "$such" ] || continue
    meets "$name, right: such orders" [ "$(tail -n 1 "$room/output")" = "such orders: --never '$such'" ]
    run --never "$such" "$examples/$name.script"
    meets "$name, never $such: status $status" [ "$status" -eq 2 ]
done <<'END'
two_preparations_of_one_packet|0|right: 2 orders, 2 outcomes||
a_lost_pending_mark|2|not right in 3 of 3 orders, 3 of 3 outcomes; one of them:|step 1 was refused: NotOwner;D1 has a|reply(1) == NotOwner
a_cancel_against_a_completion|2|not right in 2 of 3 orders, 2 of 3 outcomes; one of them:|step 2 was refused: Ended|reply(2) == Ended
a_removal_against_a_send|2|not right in 55 of 71 orders, 4 of 5 outcomes; one of them:|step 3 was refused: NotDrained|reply(3) == NotDrained
a_hand_over_against_a_drain|2|not right in 118 of 143 orders, 3 of 5 outcomes; one of them:|step 5 was refused: not_held;remove lock 0 is held, by seat 2 as tag 1|reply(5) == not_held
a_cancel_against_a_completion_by_a_slot|2|not right in 46 of 46 orders, 4 of 4 outcomes; one of them:|step 4 was refused: no_token|reply(4) == no_token
../right/a_cancel_by_a_slot_that_nobody_finishes|2|not right in 3 of 20 orders, 1 of 4 outcomes; one of them:|D0 has a|owner(a) == D0
../right/a_removal_that_keeps_its_reference|2|not right in 25 of 50 orders, 1 of 3 outcomes; one of them:|remove lock 0 is held, by seat 0 as tag 1|held(0) == 1
END
# What a single order may leave: a packet at its device, a full slot, a cancel routine; and a setup that was refused.
left() {
    printf '{"form":2,"slots":1,"seats":1,"locks":1,"completions":[],"cancels":[["finish",0]],"dispatches":[[%s]],"drivers":[[[3,0]]],"setup":[%s,%s,%s,%s%s],"steps":[%s]}' \
        "$1" '{"seat":0,"do":"create_device","driver":0,"lock":0}' '{"seat":0,"do":"allocate","size":1,"as":"a"}' \
        '{"seat":0,"do":"set_next","by":"o","irp":"a","major":3,"word":7}' \
        '{"seat":0,"do":"call_driver","by":"o","irp":"a","target":0}' "$2" "$3" >"$room/left.script"
    run --right "$room/left.script"
    told=$(sed -n 's/^wrong: //p' "$room/output" | paste -sd';')
    such=$(sed -n 's/^such orders: //p' "$room/output")
}
look='{"seat":0,"do":"look","irp":"a"}'
left '"hold_slot"' '' '{"seat":0,"do":"publish","slot":0,"irp":"a"}'
ended 'a full slot' 2 '' 'not right in 1 of 1 order, 1 of 1 outcome; one of them:'
meets "a full slot: $told" [ "$told" = 'D0 has a;cancel slot 0 is full: use 1 stands in it' ]
meets "a full slot: such orders: $such" [ "$such" = "--never 'owner(a) == D0'" ]
left '"hold_slot"' '' '{"seat":0,"do":"publish","slot":0,"irp":"a"},{"seat":0,"do":"allocate","size":1,"as":"a"}'
meets "a packet without a label: $told" [ "$told" = 'D0 has IRP 0.1;cancel slot 0 is full: use 1 stands in it' ]
meets "a packet without a label: no such orders: $such" [ -z "$such" ]
left '"hold",0' '' "$look"
meets "a cancel routine: $told" [ "$told" = 'D0 has a;a still has a cancel routine' ]
left '"finish",0,4' ',{"seat":0,"do":"mark_pending","by":0,"irp":"a"}' "$look"
meets "a setup: $told" [ "$told" = 'step 4 of setup was refused: Ended' ]
meets "a setup: no such orders: $such" [ -z "$such" ]
left '"finish",0,4' '' "$look"
ended 'a look at what was completed' 0 '' 'right: 1 order, 1 outcome'

# Texts that are no conditions: the column, and what was expected there.
while IFS='|' read -r condition column expected; do
    [ -n "$column" ] || continue
    run --never "$condition" "$examples"/a_cancel_against_a_completion.script
    ended "never '$condition'" 4 "irp: condition refused: column $column: expected $expected"
done <<'END'
|1|not, a parenthesis, or reply, made, owner, status, information, current, live, cancel, deleted, held or removing
owner(b) == ended|7|a label of the script, as in owner(a)
owner a == ended|7|an opening parenthesis, as in owner(a)
owner(a == ended|9|a closing parenthesis
owner(a)|9|==, !=, <, <=, > or >=
owner(a) = ended|10|==, !=, <, <=, > or >=
owner(a) == Ended|13|originator, ended, D2 or none
reply(3) == Ended|7|the place of one of the script's steps, from 0, as in reply(7)
reply(2) == Endd|13|a refusal as Ended, a number, a status, done, an answer as standing, D2, true, false or none
held(lock 1) > 0|11|the number of a remove lock, as in held(lock 0)
held(0) > many|11|a number as 5 or 0x103, or a status as STATUS_PENDING
owner(a) == D64|13|originator, ended, D2 or none
deleted(64)|9|the number of a device, as in deleted(0)
deleted(0) == 1|15|true or false
made(3)|6|the place of one of the script's steps, from 0, as in reply(7)
made 2|6|an opening parenthesis, as in owner(a)
made(2|7|a closing parenthesis
made(2) == 1|12|true or false
live(a) live(a)|9|and, or, or the end
live(a) and|12|not, a parenthesis, or reply, made, owner, status, information, current, live, cancel, deleted, held or removing
END
deep=$(printf 'not %.0s' $(seq 33))
run --never "${deep}live(a)" "$examples"/a_cancel_against_a_completion.script
ended 'thirty-three nots' 4 'irp: condition refused: column 129: expected at most 32 parentheses and nots within each other'
run --never "${deep#not }live(a)" "$examples"/a_cancel_against_a_completion.script
ended 'thirty-two nots' 2 '' 'it holds in 3 of 3 orders, 3 of 3 outcomes; one of them:'

# Outcomes by their ends: two of the first race look alike.
run --ends "$examples"/a_cancel_against_a_completion.script
meets 'by ends: status' [ "$status" -eq 0 ]
meets 'by ends: orders' grep -q '^outcomes: [23], of 3 orders$' "$room/output"
for script in two_preparations_of_one_packet a_look_between_a_reuse_and_its_label; do
    # Without the heads no two outcomes are told alike.
    run --ends "$examples/$script.script"
    outcomes=$(grep -c '^outcome ' "$room/output")
    blocks=$(sed '1d; s/^outcome .*/;/' "$room/output" | tr -d '\n' | tr ';' '\n' | sed 1d | sort -u | wc -l)
    meets "$script by ends: $outcomes outcomes, $blocks told" [ "$outcomes" -eq "$blocks" ]
done
run --ends --never 'live(a) and reply(0) == done' "$examples"/a_cancel_against_a_completion.script
ended 'a reply by ends' 4 'irp: condition refused: column 13: expected no reply, made or deleted beside --ends, which leaves replies out'
run --ends --never 'made(0)' "$examples"/a_cancel_against_a_completion.script
ended 'a step made, by ends' 4 'irp: condition refused: column 1: expected no reply, made or deleted beside --ends, which leaves replies out'

# Two seats that allocate: the outcomes differ in use numbers alone.
printf '{"form":1,"seats":2,"locks":1,"completions":[],"cancels":[],"dispatches":[],"drivers":[[]],"setup":[],"steps":[%s,%s]}' \
    '{"seat":0,"do":"allocate","size":1,"as":"a"}' '{"seat":1,"do":"allocate","size":1,"as":"b"}' >"$room/two.script"
run "$room/two.script"
ended 'two allocations' 0 '' 'outcomes: 2, of 2 orders'
run --groups "$room/two.script"
ended 'two allocations in groups' 0 '' 'outcomes: 1, of 2 orders'

# Each transcript that is shown is legal; numbers beyond the last are refused.
for number in 1 2 3; do
    run --show "$number" "$examples"/a_cancel_against_a_completion.script
    meets "show $number" [ "$("$irpx" check <"$room/output")" = 'legal 7' ]
done
# All of them, written by bin/irp_orders.
if [ -z "${IRP_ORDERS:-}" ]; then
    ../bin/irp_orders --write "$room/all" "$examples"/a_cancel_against_a_completion.script >"$room/output" 2>"$room/errors"
    status=$?
    ended 'write' 0 '' "$room/all: the table and 3 transcripts"
    meets 'write: files' [ "$(cd "$room/all" && echo *)" = '1.transcript 2.transcript 3.transcript table' ]
    meets 'write: table' cmp -s "$room/all/table" "$examples"/a_cancel_against_a_completion.expected
fi
for number in 0 4; do
    run --show "$number" "$examples"/a_cancel_against_a_completion.script
    ended "show $number" 4 'irp: outcomes are numbered 1 to 3'
done

# Bounds that are met.
run --states 1 "$examples"/a_removal_against_a_send.script
ended 'one state' 3 'irp: more states than may be side by side; --states N allows more, --ends (not beside --right) needs fewer'
run --outcomes 4 "$examples"/a_removal_against_a_send.script
ended 'four outcomes' 3 'irp: more outcomes than there may be; --outcomes N allows more, --ends (not beside --right) has fewer'
run --outcomes 5 "$examples"/a_removal_against_a_send.script
ended 'five outcomes' 0 '' 'outcomes: 5, of 71 orders'

# Scripts that are refused are told as irpx tells them.
for script in refused/*.script; do
    run "$script"
    ended "$script" 1 "$(sed 's/^irpx:/irp:/' "${script%.script}.expected")"
done

# A script in words has the orders of its JSON, and its faults are told as irp_words tells them.
for words in ../examples/recipes/a_device_is_removed.words ../examples/recipes/a_cancel_race.words; do
    run "${words%.words}.script"
    cp "$room/output" "$room/table"
    run "$words"
    ended "$words" 0 ''
    meets "$words: table" cmp -s "$room/table" "$room/output"
done
printf 'dispatches\n  finish STATUS_SUCESS 0\nsteps\n  look by o irp a\n' >"$room/wrong.words"
run "$room/wrong.words"
ended 'faulty words' 1 'line 2, column 10: "STATUS_SUCESS"; expected a status: a name such as STATUS_SUCCESS, or a number below 2^32. Did you mean STATUS_SUCCESS?
line 4, column 8: "by"; expected a key of look, each once: irp'

# Other words, files and outputs.
usage='irp: usage: irp orders [--show K or --never CONDITION or --right] [FILE]; see irp orders --help'
while read -r words; do
    # shellcheck disable=SC2086
    run $words <.
    ended "words '$words'" 4 "$usage"
done <<'END'
--show
--show one
--show 1 --never live(a)
--states -1
--workers 2
one two
END
for words in '--show 1' '--never live(a)' --ends; do
    # shellcheck disable=SC2086
    run --right $words "$examples"/a_lost_pending_mark.script
    ended "--right $words" 4 'irp: --right stands without --show, --never and --ends; leave out the other word'
done
run --right --states 1 "$examples"/a_removal_against_a_send.script
ended 'one state, right' 3 'irp: more states than may be side by side; --states N allows more, --ends (not beside --right) needs fewer'
run "$room/none.script"
ended 'no such file' 5 "irp: $room/none.script: can't be opened: there is no such file"
run <.
ended 'a directory' 5 'irp: input or output failed'
timeout 300 "$irp_orders" "$examples"/a_lost_pending_mark.script >/dev/full 2>"$room/errors"
status=$?
ended 'a full device' 5 'irp: input or output failed'
run --help
meets '--help shows an example' grep -q "irp orders --never '" "$room/output"

echo "tried: $tried $wrong orders"
if ! python3 -c 'import sys; sys.exit(sys.version_info < (3, 9))' 2>/dev/null; then
    echo 'passed over, for want of Python 3.9: orders by the second reading'
elif ! python3 -B orders.py "$irp_orders" "$irpx" "$count" "$runs" "${SEED:-1}"; then
    wrong=$((wrong + 1))
fi
[ "$wrong" -eq 0 ]
