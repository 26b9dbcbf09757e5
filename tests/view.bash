#!/bin/bash
# Shows that `irp_view text` and `irp_view packet` show the entries that their words ask for: a use of a packet, also as
# messages tell it, a span,
# or all, with word lines only behind all; that entries and word lines are shown as they are read, also before a line
# that is refused; and what they say of a completion that a right driver leaves out, and of one that is a mistake.
# IRP_VIEW names the program; without it, it is the one that bin/irp_view runs.
# Each failure has a line of its own. Ends with status 0 where all was as expected, else with 1.
set -u
cd "$(dirname "$(readlink -f "$0")")" || exit 1
irp_view=${IRP_VIEW:-$(../bin/program irp_view quick)} || exit 1
tried=0
wrong=0

# Checks that the words from $2 on show exactly the entries whose numbers are $1, from a file and from standard input.
# The transcript is the last word.
shows() {
    local numbers=$1 words=("${@:2:$#-2}") text=${*: -1} got
    for got in "$("$irp_view" "${words[@]}" "$text" 2>/dev/null)" "$("$irp_view" "${words[@]}" <"$text" 2>/dev/null)"; do
        tried=$((tried + 1))
        got=$(grep -oE '^ {0,3}[0-9]+  ' <<<"$got" | xargs)
        [ "$got" = "$numbers" ] && continue
        wrong=$((wrong + 1))
        echo "failed: view: ${words[*]} $text: entries $got in place of $numbers"
    done
}

# Checks that the words from $2 on show $1 lines of steps on remove locks and cancel slots.
shows_steps() {
    local got
    tried=$((tried + 1))
    got=$("$irp_view" "${@:2}" 2>/dev/null | grep -c '^    step [0-9]*  seat ')
    [ "$got" = "$1" ] && return
    wrong=$((wrong + 1))
    echo "failed: view: ${*:2}: $got steps in place of $1"
}

cancels=../examples/cancelling/each_cancel_routine_answers_its_own.transcript
shows "$(seq -s ' ' 0 $(($(wc -l <"$cancels") - 2)))" text "$cancels"
shows '3 4' text --entries 3..5 "$cancels"
shows '0 1' text --entries ..2 "$cancels"
shows '' text --entries 2..2 "$cancels"
shows "$(seq -s ' ' 9 $(($(wc -l <"$cancels") - 2)))" text --entries 9.. "$cancels"
shows "$(grep -nE '"irp":\[0,1\]' "$cancels" | sed 's/:.*//' | awk '{print $1 - 2}' | xargs)" packet 0 1 "$cancels"
shows '4 5' packet 0 1 --entries 4..6 "$cancels"
shows '4 5' packet 0.1 --entries 4..6 "$cancels"
shows '' packet 99 1 "$cancels"
shows '' packet 99.1 "$cancels"

locks=$(grep -l '"tag"' ../examples/removal/*.transcript | head -n 1)
shows_steps "$(grep -c '"step"' "$locks")" text "$locks"
shows_steps 0 text --entries 0.. "$locks"
shows_steps 0 packet 0 1 "$locks"

# Checks that of the transcript in $room/refused, whose line $1 is refused with the words $2, the words from $4 on show
# what they show, with --entries ..$3, of the transcript that isn't.
stands_before() {
    local wanted got status
    tried=$((tried + 1))
    wanted=$("$irp_view" "${@:4}" --entries "..$3" "$cancels")
    got=$("$irp_view" "${@:4}" "$room/refused" 2>"$room/told")
    status=$?
    [ "$status" = 1 ] && [ "$got" = "$wanted" ] &&
        [ "$(cat "$room/told")" = "irp: transcript refused: line $1$2" ] && return
    wrong=$((wrong + 1))
    echo "failed: view: ${*:4} before line $1, which is refused: status $status, $(cat "$room/told"), $got"
}

room=$(mktemp -d) || exit 1
trap 'rm -rf "$room"' EXIT
# Line 1 is the header, so line 12 would be entry 10.
sed '12s/^/!/' "$cancels" >"$room/refused"
stands_before 12 ', column 1: this isn'"'"'t JSON' 10 text
stands_before 12 ', column 1: this isn'"'"'t JSON' 10 packet 0 1
shows '3 4' text --entries 3..5 "$room/refused"
shows '8 9' text --entries 8.. "$room/refused"
shows '' text --entries 10.. "$room/refused"
shows '4 5' packet 0 1 --entries 4..6 "$room/refused"
sed 's/^/!/' "$cancels" >"$room/refused"
stands_before 1 ', column 1: this isn'"'"'t JSON' 0 text
head -c -1 "$cancels" >"$room/refused"
stands_before "$(wc -l <"$cancels")" ': the last line has no newline' $(($(wc -l <"$cancels") - 2)) text

# Checks that `text` shows a line like $1 as the last of the lines in $room/first, $2 of them, before another line comes.
shows_first() {
    local line pid at
    tried=$((tried + 1))
    coproc view { "$irp_view" text; }
    pid=$view_PID
    cat "$room/first" >&"${view[1]}"
    for ((at = 0; at < $2; at++)); do
        read -r -t 60 line <&"${view[0]}"
    done
    # shellcheck disable=SC2053 # $1 is a pattern.
    if [[ $line != $1 ]]; then
        wrong=$((wrong + 1))
        echo "failed: view: text shows '$line' in place of $1 before another line comes"
    fi
    eval "exec ${view[1]}>&-"
    wait "$pid" 2>/dev/null
}

head -n 2 "$cancels" >"$room/first"
shows_first '0  *' 1
{ head -n 1 "$locks" && grep -m 1 '"step"' "$locks"; } >"$room/first"
shows_first 'step *  seat *' 2

# Word lines before a line that is refused are shown.
{ cat "$locks" && echo '!'; } >"$room/refused"
shows_steps "$(grep -c '"step"' "$locks")" text "$room/refused"

# Checks that the line of entry $1 of the transcript $3 ends with $2.
ends() {
    tried=$((tried + 1))
    "$irp_view" text --entries "$1..$(($1 + 1))" "$3" | grep -qF -- "$2" && return
    wrong=$((wrong + 1))
    echo "failed: view: entry $1 of $3 doesn't say $2"
}

late=../examples/cancelling/a_completion_after_the_cancel_routine.transcript
ends 8 ' -> refused: Ended, this use has completed (a right driver makes no such call: its cancel routine' "$late"
ends 9 ' -> refused: Ended, this use has completed (in Windows: bug check 0x44, MULTIPLE_IRP_COMPLETE_REQUESTS;' "$late"

echo "tried: $tried $wrong shown"
[ "$wrong" -eq 0 ]
