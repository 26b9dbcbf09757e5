#!/bin/bash
# Tries the command lines of command_lines.txt, from the top folder: each ends with its status, says its word where it
# should, and shows no traceback; a line that is refused prints nothing, and one that asks for help starts no program. Then
# it shows that the completions for bash and zsh load, and complete.
# IRPX, IRP_VIEW, IRP_WORDS, IRP_ORDERS and IRP_LIVE name the programs; without them, they are those that bin/irp runs.
# Each failure has a line of its own. Ends with status 0 where all was as expected, else with 1.
set -u
cd "$(dirname "$(readlink -f "$0")")" || exit 1
# shellcheck source=parts/counting.bash
. ./parts/counting.bash
for name in irpx irp_view irp_words irp_orders irp_live; do
    variable=${name^^}
    program=${!variable:-$(../bin/program $name quick)} || exit 1
    declare -x "$variable=$(readlink -f "$program")"
done
cd ..

# What the command lines name: transcripts, scripts, what can't be read, and pipes that nobody reads.
"$IRPX" demo >"$room/demo"
head -n 1 "$room/demo" >"$room/header"
: >"$room/empty"
cp examples/practice/completed_twice.words "$room/my.words"
"$IRP_WORDS" json "$room/my.words" >"$room/my.script"
sed 's/  complete by D/  compleet by D/' "$room/my.words" >"$room/wrong.words"
mkdir "$room/folder"
install -m 000 "$room/demo" "$room/locked"
mkfifo "$room"/pipe{1..3}
mkdir "$room/helping"
printf '#!/bin/sh\necho "$0 was started" >&2\nexit 1\n' >"$room/helping/rt"
chmod 755 "$room/helping/rt"
for tool in cc cargo irpx; do cp "$room/helping/rt" "$room/helping/$tool"; done

# Runs the command line $1 as the row $2.
run() {
    local path=$PWD/bin:$PATH
    case " $1 " in
    *' --help '* | *' -h '*)
        path=$room/helping:$path
        local -x IRPX=$room/helping/irpx IRP_VIEW=$room/helping/irpx IRP_WORDS=$room/helping/irpx \
            IRP_ORDERS=$room/helping/irpx IRP_LIVE=$room/helping/irpx
        ;;
    esac
    PATH=$path room=$room timeout 600 bash -o pipefail -c "$1" </dev/null >"$room/$2.out" 2>"$room/$2.err"
    echo $? >"$room/$2.status"
}

# What is looked at behind the rows is made beside them.
for shell in bash zsh; do bin/irp completions $shell >"$room/completions.$shell" & done
for word in text page packet story words orders; do bin/irp $word --help >"$room/help.$word" & done

rows=()
while IFS= read -r row; do
    case $row in '' | '#'*) continue ;; esac
    rows+=("$row")
    line=${row#* | * | * | }
    while [ "$(jobs -rp | wc -l)" -ge "$(nproc)" ]; do wait -n; done
    run "$line" "${#rows[@]}" &
done <tests/command_lines.txt
wait

# Checks a row: what its command line left.
number=0
for row in "${rows[@]}"; do
    number=$((number + 1))
    status=${row%% | *}
    rest=${row#* | }
    where=${rest%% | *}
    rest=${rest#* | }
    word=${rest%% | *}
    line=${rest#* | }
    case $line in *'/locked'*) [ ! -r "$room/locked" ] || continue ;; esac # Whoever is root reads all.
    ended=$(cat "$room/$number.status")
    meets "$line: status $ended, $(head -c 200 "$room/$number.err")" [ "$ended" -eq "$status" ]
    [ -z "$word" ] || meets "$line: '$word' on standard $where" grep -qF -- "$word" "$room/$number.$where"
    meets "$line: no traceback" [ -z "$(grep -F 'Traceback' "$room/$number.err")" ]
    [ "$status" -ne 4 ] || meets "$line: nothing on standard output" [ ! -s "$room/$number.out" ]
    case " $line " in
    *' --help '* | *' -h '*) meets "$line: nothing on standard error" [ ! -s "$room/$number.err" ] ;;
    esac
done
meets 'forty command lines at least' [ "$number" -ge 40 ]

# The flags that a program's own help names are those that `irp` takes.
flags_in() {
    grep -oE '^  --[a-z]+' | sort -u
}
for program in IRP_VIEW IRP_WORDS IRP_ORDERS; do
    case $program in
    IRP_VIEW) words='text story' ;;
    IRP_WORDS) words=words ;;
    IRP_ORDERS) words=orders ;;
    esac
    for word in $words; do cat "$room/help.$word"; done | grep -oE '^  (-h, )?--[a-z]+' | sed 's/-h, //' | sort -u >"$room/taken"
    meets "the flags of $program" cmp -s <("${!program}" --help | flags_in) "$room/taken"
done

# What bash completes where the words are $2.., the last one unfinished, is $1.
completes() {
    local wanted=$1
    shift
    meets "bash completes $*" [ "$(
        # shellcheck disable=SC1091
        . "$room/completions.bash"
        # shellcheck disable=SC2034
        COMP_WORDS=("$@") COMP_CWORD=$(($# - 1))
        _irp
        echo "${COMPREPLY[*]}"
    )" = "$wanted" ]
}

meets 'completions for bash load' bash -n "$room/completions.bash"
completes why irp wh
completes 'page packet play' irp p
completes --states irp orders --st
completes 'thread address' irp drive --sanitize ''
completes faults irp words f
completes '' irp drive --page x
meets 'completions for zsh have each word' \
    [ "$(grep -cE "^        '[a-z]+:" "$room/completions.zsh")" -eq "$(bin/irp help | grep -cE '^  [a-z]+ {2,}[a-z]')" ]
if command -v zsh >/dev/null; then
    meets 'completions for zsh load' zsh -n "$room/completions.zsh"
fi
finish 'command lines'
