#!/bin/bash
# Feeds recorded transcripts to irp_live, line by line, by the harness examples/live/replay.py: before each call it is
# asked what that would be refused with, or what a Look would show, and answers what was recorded; the verdict and the
# status are those of `irpx check`. Then the conversation crates/irp_live/stdin is answered byte for byte, also where the
# last line has no newline, and the endings that no script shows. IRPX names the program irpx, and IRP_LIVE the program
# irp_live; without it, it is the one that bin/irp_live runs. Ends with status 0 where all was as expected, else with 1.
set -u
cd "$(dirname "$(readlink -f "$0")")" || exit 1
if ! command -v python3 >/dev/null; then
    echo 'passed over, for want of Python: a harness over irp_live'
    exit 0
fi
irpx=${IRPX:-$(../bin/program irpx quick)} || exit 1
live=${IRP_LIVE:-$(../bin/program irp_live quick)} || exit 1
tried=0
wrong=0

# Counts one check: its name, what is wanted, what came.
meets() {
    tried=$((tried + 1))
    [ "$2" = "$3" ] && return
    wrong=$((wrong + 1))
    printf 'failed: %s: wanted %s, got %s\n' "$1" "$2" "$3"
}

header='{"cancels":[],"completions":[0,0,0,0,0],"dispatches":[],"drivers":[],"form":1,"locks":1,"seats":1}'
for transcript in ../examples/*/*.transcript; do
    wanted=$("$irpx" check <"$transcript" 2>/dev/null; echo $?)
    # irp_live tells of a line that it doesn't take, and goes on.
    [ "$wanted" != 1 ] || continue
    got=$(../examples/live/replay.py "$transcript" "$live"; echo $?)
    case $wanted in
    legal*) meets "$transcript" "$wanted" "$got" ;;
    *) meets "$transcript" "$wanted" "$(tail -n 2 <<<"$got")" ;;
    esac
done

talk=../crates/irp_live
meets 'the conversation' "$(cat $talk/stdout; cat $talk/status)" "$("$live" <$talk/stdin; echo $?)"
meets 'no line' "$(printf 'legal 0\n0')" "$("$live" </dev/null; echo $?)"
meets 'no header' "$(printf '{"fault":"no_form","line":1}\n1')" "$(echo '{"end":true}' | "$live" 2>/dev/null; echo $?)"
meets 'an end without newline' "$(printf 'null\nlegal 0\n0')" "$(printf '%s\n{"would"' "$header" | "$live"; echo $?)"
meets 'another word' 4 "$("$live" check </dev/null 2>/dev/null; echo $?)"
meets 'a full output' 5 "$(echo "$header" | "$live" 2>/dev/null >/dev/full; echo $?)"
meets 'a long line' '{"fault":"too_long","line":2}' "$({ echo "$header"; head -c 65537 /dev/zero | tr '\0' ' '; echo; } | "$live" | sed -n 2p)"
printf 'tried: %d %d checks of irp_live\n' "$tried" "$wrong"
[ "$wrong" -eq 0 ]
