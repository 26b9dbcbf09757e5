#!/bin/bash
# Shows that `irp_view why` tells of a line that is refused where in it and what was expected there: each line of
# refused_lines gets what stands below it, and one changed key of a line of an example is named. IRP_VIEW names the
# program; without it, it is the one that bin/irp_view runs. SEED and COUNT are those of the changed keys: without
# them 1, and 400 or, with a program that was built without proofs, 100. Each failure has a line of its own. Ends with
# status 0 where all was as expected, else with 1.
set -u
cd "$(dirname "$(readlink -f "$0")")" || exit 1
irp_view=${IRP_VIEW:-$(../bin/program irp_view quick)} || exit 1
case $irp_view in *.unproved) count=${COUNT:-100} ;; *) count=${COUNT:-400} ;; esac
tables='"cancels":["either"],"completions":[1,0,1,0,0],"dispatches":[[1,0,0,0,0,1]],"drivers":[[[3,0]]]'
one="{$tables,\"form\":1,\"locks\":1,\"seats\":2}"
two="{$tables,\"form\":2,\"locks\":1,\"seats\":2,\"slots\":1}"
word='{"do":"acquire","lock":0,"reply":{"status":0},"seat":0,"step":0,"tag":1}'
tried=0
wrong=0

# Prints the lines that stand before one of the kind $1.
before() {
    case $1 in
    header) ;;
    entry | word) echo "$one" ;;
    entry2 | word2) echo "$two" ;;
    behind) printf '%s\n' "$one" "$word" ;;
    esac
}

# Checks that of the line $2, which has a mark and stands behind those of the kind $1, this is told: $3.
check() {
    local front=${2%%^*} lines place='' got wanted
    lines=$(before "$1" | wc -l)
    [ "$front" = "$2" ] || place=", column $((${#front} + 1))"
    case $3 in '"'*) place+=', ' ;; *) place+=': ' ;; esac
    wanted="irp: transcript refused: line $((lines + 1))$place$3"
    got=$({ before "$1" && echo "${2/^/}"; } | timeout 600 "$irp_view" why 2>&1)
    [ "$got" = "$wanted" ] && return
    wrong=$((wrong + 1))
    printf 'failed: refused lines: %s\n  expected %s\n  got      %s\n' "$2" "$wanted" "$got"
}

while read -r kind line; do
    case $kind in '' | '#') continue ;; esac
    IFS= read -r told
    tried=$((tried + 1))
    check "$kind" "$line" "${told#    }"
done <refused_lines

echo "tried: $tried $wrong refused lines"
if ! python3 -c 'import sys; sys.exit(sys.version_info < (3, 9))' 2>/dev/null; then
    echo 'passed over, for want of Python 3.9: changed keys'
elif ! second_reading/keys_by_chance "$irp_view" "$count" "${SEED:-1}"; then
    wrong=$((wrong + 1))
fi
[ "$wrong" -eq 0 ]
