#!/bin/bash
# Tries `bin/irp`: each word runs the program that it names, with the words behind it, its input and its exit status; other
# words are refused. Each failure has a line of its own. Ends with status 0 where all was as expected, else with 1.
set -u
cd "$(dirname "$(readlink -f "$0")")" || exit 1
room=$(mktemp -d) || exit 1
trap 'rm -rf "$room"' EXIT
tried=0
wrong=0
example=../examples/practice/completed_twice

# Checks that `irp` with the words $3.. and the input $2 ends with status $1, and that its output has the text of `has`.
gives() {
    local status=$1 input=$2
    shift 2
    tried=$((tried + 1))
    ../bin/irp "$@" <"$input" >"$room/output" 2>&1
    local ended=$?
    if [ "$ended" -eq "$status" ] && grep -qF -- "$has" "$room/output"; then return; fi
    wrong=$((wrong + 1))
    echo "failed: irp $*: status $ended, $(head -c 200 "$room/output")"
}

has='"do":"complete"'
gives 0 "$example.words" words json
../bin/irp words json "$example.words" >"$room/script"
gives 0 "$room/script" run
../bin/irp run <"$room/script" >"$room/transcript"
has='"do":"complete"'
gives 0 /dev/null run "$example.words"
gives 0 /dev/null run "$room/script"
gives 0 "$example.words" run -
has='legal 8'
gives 0 "$room/transcript" check
gives 0 /dev/null check "$room/transcript"
tried=$((tried + 1))
if ! ../bin/irp run -o "$room/again" "$example.words" || ! cmp -s "$room/again" "$room/transcript"; then
    wrong=$((wrong + 1))
    echo 'failed: irp run -o: no transcript, or another one'
fi
sed 's/  complete by D irp a/  compleet by D irp a/' "$example.words" >"$room/misspelled.words"
has='misspelled.words:14:3: "compleet"'
gives 1 /dev/null run "$room/misspelled.words"
has='Did you mean complete?'
gives 1 /dev/null run "$room/misspelled.words"
has='65: a number from 1 to 64 is wanted'
gives 4 /dev/null run --workers 65 "$room/script"
has='standard input is empty'
gives 1 /dev/null check
gives 1 /dev/null why
has='No such file'
gives 5 /dev/null run "$room/nothing"
has='refused: Ended'
gives 0 "$room/transcript" text
has='1 of 1 order'
gives 0 "$room/script" orders
has='differs in'
gives 2 ../examples/why/completed_twice.transcript why
has='Usage: irp WORD'
gives 0 /dev/null --help
has='usage: irp run'
gives 0 /dev/null run --help
gives 0 /dev/null run -h
has='usage: irp check'
gives 0 /dev/null check --help
has='irp, commit'
gives 0 /dev/null --version
has='completions'
gives 0 /dev/null help
has='--on {host,wine}'
gives 0 /dev/null play --help
has='a FILE or --random N is wanted'
gives 4 /dev/null play
has='ran: it isn'\''t one of the words; did you mean run?'
gives 4 /dev/null ran
has='a lesson and a file are wanted'
gives 4 /dev/null lesson

# A program that the environment names is run; one that can't be run is told, and bin/irpx doesn't run itself.
printf '#!/bin/sh\necho "stand-in $*"\n' >"$room/stand_in"
chmod 755 "$room/stand_in"
named() {
    local -x "$1=$2"
    shift 2
    gives "$@"
}
for word in 'IRPX demo' 'IRP_VIEW text' 'IRP_WORDS words tables' 'IRP_ORDERS orders' 'IRP_LIVE live'; do
    has=stand-in
    # shellcheck disable=SC2086
    named "${word%% *}" "$room/stand_in" 0 "$room/transcript" ${word#* }
done
has="IRPX names $room/script, which can't be run"
named IRPX "$room/script" 6 /dev/null demo
has='legal 8'
named IRPX ../bin/irpx 0 "$room/transcript" check

# Each program has a manual page, with each section, and no word of it is lost.
words_of() {
    tr A-Z a-z | grep -oE '[a-z]{4,}' | sort -u
}
has='.SH SYNOPSIS'
for name in irp run check demo why text page packet story words orders live drive play lesson man completions; do
    gives 0 /dev/null man "$name"
    for section in NAME DESCRIPTION 'EXIT STATUS' EXAMPLES; do
        grep -qx ".SH $section" "$room/output" || { wrong=$((wrong + 1)) && echo "failed: man $name has no $section"; }
    done
done
gives 0 /dev/null man drive
../bin/irp drive --help | words_of >"$room/said"
words_of <"$room/output" | comm -23 "$room/said" - | grep -vxE 'usage|examples?|exit|status' >"$room/lost"
[ ! -s "$room/lost" ] || { wrong=$((wrong + 1)) && echo "failed: man drive has not: $(tr '\n' ' ' <"$room/lost")"; }
has='nobody: there is no page of it'
gives 4 /dev/null man nobody

# Somebody interrupts a script while it loads a module, for which this one stands: it ends without a word.
mkdir "$room/modules"
cat >"$room/modules/subprocess.py" <<'END'
import os
import signal
import sys

if hasattr(sys.modules["__main__"], "__file__"):
    os.kill(os.getpid(), signal.SIGINT)
sys.path.remove(os.path.dirname(__file__))
del sys.modules["subprocess"]
import subprocess
END
for script in ../bin/{irp,irp_run,man,completions,watched} ../page/{draw,list} ../drivers/run ../lessons/{check,grade,slides} player/{play,minimize}; do
    tried=$((tried + 1))
    PYTHONPATH=$room/modules env --default-signal=INT "$script" --help >"$room/output" 2>&1
    ended=$?
    if [ "$ended" -eq 130 ] && [ ! -s "$room/output" ]; then continue; fi
    wrong=$((wrong + 1))
    echo "failed: $script, interrupted while it loads: status $ended, $(head -c 200 "$room/output")"
done
echo "tried: $tried $wrong one command"
[ "$wrong" -eq 0 ]
