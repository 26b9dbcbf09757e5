#!/bin/bash
# Shows that `irp_view why` tells the right reason. Each transcript of examples/why gets what stands beside it, printed
# and with the status that belongs to it, from a file and from standard input; each kind of difference is among them, and
# each section that is named stands in docs/RULES.md. Limits that no small transcript reaches are told by their numbers.
# Wrong words and a file that isn't there end as they should. Transcripts that are changed, by chance too, are compared
# with `irpx check` and with the second reading. IRP_VIEW and IRPX name the programs; without them, they are those that
# bin/irp_view and bin/irpx run. SEED and COUNT are those of the changed transcripts: without them 1, and 400 or, with a
# program that was built without proofs, 60.
set -u
cd "$(dirname "$(readlink -f "$0")")" || exit 1
irp_view=${IRP_VIEW:-$(../bin/program irp_view quick)} || exit 1
irpx=${IRPX:-$(../bin/program irpx quick)} || exit 1
# shellcheck source=parts/counting.bash
. ./parts/counting.bash
examples=../examples/why
case $irp_view in *.unproved) count=${COUNT:-60} ;; *) count=${COUNT:-400} ;; esac

# Whether the last run ended with the status $1, printed the file $2, and wrote the file $3 to standard error.
left() {
    [ "$status" -eq "$1" ] && cmp -s "$2" "$room/output" && cmp -s "$3" "$room/errors"
}

# Runs irp_view with the given words. Keeps its output, its errors and its status. Standard input is what stands at the
# call.
run() {
    timeout 300 "$irp_view" "$@" >"$room/output" 2>"$room/errors"
    status=$?
}

# Checks what the last run left, named $1, against the file $2, whose first words tell the status.
told() {
    case $(head -c 16 "$2") in
    'nothing is wrong') meets "$1" left 0 "$2" /dev/null ;;
    'entry '*) meets "$1" left 2 "$2" /dev/null ;;
    *) meets "$1" left 1 /dev/null "$2" ;;
    esac
}

for text in "$examples"/*.transcript; do
    expected=${text%.transcript}.expected
    run why "$text"
    told "$text" "$expected"
    run why <"$text"
    told "$text from standard input" "$expected"
done
run why empty.transcript
echo 'nothing is wrong: 0 entries, legal' >"$room/expected"
told 'an empty transcript' "$room/expected"
head -n 2 "$examples"/nothing_is_wrong.transcript >"$room/transcript"
run why "$room/transcript"
echo 'nothing is wrong: 1 entry, legal' >"$room/expected"
told 'one entry' "$room/expected"
# Of many refused calls the first ten are told.
frees() {
    head -n 1 "$examples"/nothing_is_wrong.transcript
    local n
    for ((n = 0; n < $1; n++)); do
        echo "{\"asked\":[],\"call\":{\"do\":\"free\",\"irp\":[0,1]},\"n\":$n,\"reply\":{\"refused\":\"NoIrp\"},\"seat\":0}"
    done
}
for count in 1 10 11 25; do
    frees $count >"$room/transcript"
    run why "$room/transcript"
    {
        [ $count = 1 ] && echo 'nothing is wrong: 1 entry, legal' || echo "nothing is wrong: $count entries, legal"
        echo -n "refused calls: $count"
        for ((n = 0; n < (count < 10 ? count : 10); n++)); do echo -n ", entry $n NoIrp"; done
        [ $count -le 10 ] && echo || echo ", and $((count - 10)) more"
    } >"$room/expected"
    told "$count refused calls" "$room/expected"
done

# Each kind of difference has its example.
shown() { grep -qx "  differs in  asked [0-9]*, shown: .* (place $1)" "$examples"/*.expected; }
for place in {1..12}; do meets "an example of place $place of what is shown" shown "$place"; done
while read -r row; do
    meets "an example with the row '$row'" grep -qE "^  $row\$" "$examples"/*.expected
done <<'END'
differs in  n
differs in  lock
differs in  drained
manager     refused: .*
rule        .*: none fails
rule        CallDriver .*|rule        PENDING where .*
says        asks nobody any more
manager     asks nobody any more
differs in  asked [0-9]+
differs in  asked [0-9]+, answer of dispatch .*
differs in  asked [0-9]+, answer of [a-z_]+ [0-9]+ for .*
differs in  asked [0-9]+, answer of cancel routine .*
END

# Each section that is named is a heading of the page.
while read -r section; do
    meets "a heading '$section' in RULES" grep -qx "##* $section" ../docs/RULES.md
done < <(sed -n 's/^  see         docs\/RULES.md, //p' "$examples"/*.expected | sort -u)

# Prints an entry without questions: its number, its call and its reply.
entry() {
    echo "{\"asked\":[],\"call\":{$2},\"n\":$1,\"reply\":{$3},\"seat\":0}"
}

# Prints a transcript that creates $1 devices, attaches $2 of them to device 0, and allocates $3 packets.
long_transcript() {
    local at n=0
    echo '{"cancels":[],"completions":[0,0,0,0,0],"dispatches":[],"drivers":[[]],"form":1,"locks":1,"seats":1}'
    for ((at = 0; at < $1; at++, n++)); do
        entry $n '"do":"create_device","driver":0,"lock":0' "\"device\":$at"
    done
    for ((at = 1; at <= $2; at++, n++)); do
        entry $n "\"device\":$at,\"do\":\"attach\",\"to\":0" "\"device\":$((at - 1))"
    done
    for ((at = 0; at < $3; at++, n++)); do
        entry $n '"do":"allocate","size":1' "\"irp\":[$at,$((at + 1))]"
    done
}

# Checks what is told of the transcript of $2 devices, $3 attached and $4 packets, whose last line is one too many.
beyond() {
    long_transcript "$2" "$3" "$4" >"$room/transcript"
    cat >"$room/expected"
    run why "$room/transcript"
    told "$1" "$room/expected"
}

beyond 'a stack of 17 devices' 17 16 0 <<'END'
entry 32 (line 34): IoAttachDeviceToDeviceStack(D16, the stack of D0)
  differs in  reply
  says        attached above D15
  manager     refused: TooDeep
  rule        Attach's checks are NoDevice, DeviceGone, NoDevice, DeviceGone, SameStack, StillAttached, TooDeep: the first that fails is TooDeep
  why         the stack would be too deep: devices in the stack: 16
  see         docs/RULES.md, The eighteen calls
END
beyond '65 devices' 65 0 0 <<'END'
entry 64 (line 66): IoCreateDevice(driver 0, remove lock 0)
  differs in  reply
  says        D64
  manager     refused: Full
  rule        CreateDevice's checks are NoDriver, NoLock, Full: the first that fails is Full
  why         a limit is reached: devices created: 64
  see         docs/RULES.md, The eighteen calls
END
beyond '4,097 packets' 0 0 4097 <<'END'
entry 4096 (line 4098): IoAllocateIrp(1 location)
  differs in  reply
  says        IRP 4096.4097
  manager     refused: Full
  rule        Allocate's checks are BadSize, Full: the first that fails is Full
  why         a limit is reached: live packets: 4096, next use number 4097
  see         docs/RULES.md, The eighteen calls
END

# Wrong words; they are judged before the input is read. Then a file that isn't there, and a folder.
echo 'irp: usage: irp why, text, story or packet SLOT USE, then [FILE]; see irp --help' >"$room/usage"
while read -r words; do
    # shellcheck disable=SC2086
    run $words <.
    meets "words '$words'" left 4 /dev/null "$room/usage"
done <<END

Why
because $examples/completed_twice.transcript
why --loud $examples/completed_twice.transcript
why $examples/completed_twice.transcript more
text --entries 5..2 $examples/nothing_is_wrong.transcript
text --entries 5 $examples/nothing_is_wrong.transcript
packet
packet 0
packet 0 one
END
echo "irp: $room/no_such_file: can't be opened: there is no such file" >"$room/failed"
run why "$room/no_such_file"
meets 'a file that is not there' left 5 /dev/null "$room/failed"
echo 'irp: input or output failed' >"$room/failed"
run why <.
meets 'a folder as standard input' left 5 /dev/null "$room/failed"
timeout 300 "$irp_view" why "$examples"/completed_twice.transcript >/dev/full 2>"$room/errors"
status=$?
: >"$room/output"
meets 'a full device' left 5 /dev/null "$room/failed"
run --help
meets '--help' [ "$status" -eq 0 ]
meets '--help shows an example' grep -q 'irp_view why ' "$room/output"

# What WRITING shows of `text` is what is printed.
run text --entries 5..6 ../examples/practice/two_devices.transcript
sed -n '/^   5  originator/,/^```/p' ../docs/WRITING.md | grep -v '^```' >"$room/shown"
sed 's/\(context 0x9\), on success, on error, on cancel/\1, ../' "$room/output" >"$room/printed"
meets 'a history as text in WRITING' cmp -s "$room/shown" "$room/printed"

echo "tried: $tried $wrong reasons"
if ! python3 -c 'import sys; sys.exit(sys.version_info < (3, 9))' 2>/dev/null; then
    echo 'passed over, for want of Python 3.9: reasons by the second reading'
elif ! second_reading/why_by_chance "$irp_view" "$irpx" "$count" "${SEED:-1}"; then
    wrong=$((wrong + 1))
fi
[ "$wrong" -eq 0 ]
