#!/bin/bash
# Tries `irp_words`: each script of the examples goes into words and back as the same script, and runs to the same
# transcript; scripts that were written in words are the scripts of JSON beside them; each wrong text of
# wrong_words.txt is told with its faults, line by line, and each of warned_words.txt with its warnings. IRP_WORDS names the program; without it, it is the one that
# bin/irp_words runs. IRPX names irpx. Each failure has a line of its own. Ends with status 0 where all was as expected,
# else with 1.
set -u
cd "$(dirname "$(readlink -f "$0")")" || exit 1
irp_words=${IRP_WORDS:-$(../bin/program irp_words quick)} || exit 1
irpx=${IRPX:-$(../bin/program irpx quick)} || exit 1
# shellcheck source=parts/counting.bash
. ./parts/counting.bash

# Prints the script of standard input in one form, so that equal scripts are equal texts: words that the program makes.
form_of() {
    "$irp_words" words
}

# A script's size, in steps, above which a program that was built without proofs is too slow for it.
most=100000
[ "${irp_words%.unproved}" = "$irp_words" ] || most=10000

# Each script there and back.
for script in ../examples/*/*.script; do
    [ "$(wc -c <"$script")" -le "$most" ] || continue
    "$irp_words" words "$script" >"$room/words"
    meets "$script: words, status" [ $? -eq 0 ]
    "$irp_words" json <"$room/words" >"$room/json"
    meets "$script: JSON, status" [ $? -eq 0 ]
    form_of <"$room/json" | cmp -s - "$room/words"
    meets "$script: the same words" [ $? -eq 0 ]
    if command -v python3 >/dev/null; then
        meets "$script: the same script" python3 -c 'import json, sys
sys.exit(json.load(open(sys.argv[1])) != json.load(open(sys.argv[2])))' "$script" "$room/json"
    fi
    [ -e "${script%.script}.transcript" ] || continue
    "$irpx" run <"$room/json" >"$room/transcript"
    meets "$script: the same transcript" cmp -s "${script%.script}.transcript" "$room/transcript"
done

# Scripts that were written in words.
for words in ../examples/*/*.words; do
    "$irp_words" json "$words" >"$room/json"
    meets "$words: status" [ $? -eq 0 ]
    form_of <"$room/json" >"$room/one"
    form_of <"${words%.words}.script" >"$room/other"
    meets "$words: the script beside it" cmp -s "$room/one" "$room/other"
done

# Tries the wrong text in $room/text: its name is $1, and its faults are in $room/expected.
try_wrong() {
    "$irp_words" json <"$room/text" >"$room/output" 2>"$room/told"
    meets "$1: status" [ $? -eq 1 ]
    meets "$1: no output" [ ! -s "$room/output" ]
    if ! cmp -s "$room/expected" "$room/told"; then
        diff "$room/expected" "$room/told" | sed "s/^/failed: words: $1: /"
    fi
    meets "$1: what is told" cmp -s "$room/expected" "$room/told"
    "$irp_words" faults <"$room/text" >"$room/told"
    meets "$1: faults, status" [ $? -eq 1 ]
    meets "$1: faults" cmp -s "$room/expected" "$room/told"
}

# Has $1 try each text of standard input: a name behind '# ', lines behind '|', what is told behind '>'.
each_block() {
    local name= line
    while IFS= read -r line; do
        case $line in
        '# '*)
            [ -z "$name" ] || [ ! -s "$room/text" ] || "$1" "$name"
            name=${line#??}
            : >"$room/text"
            : >"$room/expected"
            ;;
        '|'*) printf '%s\n' "${line#?}" >>"$room/text" ;;
        '>'*) printf '%s\n' "${line#?}" >>"$room/expected" ;;
        esac
    done < <(cat && echo '# end')
}
each_block try_wrong <wrong_words.txt
printf 'steps # \xff\n' >"$room/text"
echo 'the text; expected UTF-8' >"$room/expected"
try_wrong 'a text that is not UTF-8'
head -c 1048577 /dev/zero | tr '\0' ' ' >"$room/text"
echo 'the text; expected a text of at most 1,048,576 bytes' >"$room/expected"
try_wrong 'a text that is too long'

# Tries the text in $room/text, which is taken: its name is $1, and the warnings are in $room/expected.
try_warned() {
    local words expected
    for words in faults 'faults --strict'; do
        expected=0
        [ "$words" = faults ] || expected=2
        # shellcheck disable=SC2086
        "$irp_words" $words <"$room/text" >"$room/told"
        meets "$1: $words, status" [ $? -eq "$expected" ]
        meets "$1: $words" cmp -s "$room/expected" "$room/told"
    done
}
each_block try_warned <warned_words.txt

# An empty text is a script without anything, with one seat and one remove lock.
"$irp_words" json </dev/null >"$room/json"
echo '{"form":1,"seats":1,"locks":1,"completions":[],"cancels":[],"dispatches":[],"drivers":[],"setup":[],"steps":[]}' |
    form_of | cmp -s - <(form_of <"$room/json")
meets 'an empty text' [ $? -eq 0 ]

# `setup` runs first wherever it stands: labels and devices are numbered in its order, and `steps` may have its names.
top='seats one two
dispatches
  held: hold
drivers
  disk: IRP_MJ_READ held'
setup='setup
  create_device driver disk lock 0 as low
  allocate size 1 as a'
steps='steps
  seat one allocate size 1 as b
  seat one create_device driver disk lock 0 as high
  seat one attach device high to low
  seat two free irp a'
printf '%s\n' "$top" "$setup" "$steps" | "$irp_words" json >"$room/json"
meets 'setup above steps: status' [ $? -eq 0 ]
printf '%s\n' "$top" "$steps" "$setup" | "$irp_words" json >"$room/other"
meets 'setup below steps: status' [ $? -eq 0 ]
meets 'setup below steps: the same script' cmp -s "$room/json" "$room/other"
meets 'setup below steps: the devices' grep -q '"do":"attach","device":1,"to":0}' "$room/other"

# A file that isn't there is named.
"$irp_words" json "$room/no_such_file" >"$room/output" 2>"$room/told"
meets 'no such file: status' [ $? -eq 5 ]
echo "irp: $room/no_such_file: can't be opened: there is no such file" | cmp -s - "$room/told"
meets 'no such file: what is told' [ $? -eq 0 ]

# The tables are one object, and take no further word. tests/names.bash compares what they hold.
"$irp_words" tables >"$room/output"
meets 'tables: status' [ $? -eq 0 ]
"$irp_words" tables more >"$room/output" 2>"$room/told"
meets 'tables with a file: status' [ $? -eq 4 ]
"$irp_words" tables >/dev/full 2>"$room/told"
meets 'tables on a full device: status' [ $? -eq 5 ]

finish 'words'
