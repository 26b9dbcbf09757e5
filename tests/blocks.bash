#!/bin/bash
# Gives `irpx check` texts that don't fit into one block of its reading, which is four parts of 65,536 bytes: bytes that
# spoil a line at and beside each edge of a part, texts that end there, lines without an end, entries that aren't legal
# before a line that is refused. What is told is worked out from the text: the first line that is spoiled. IRPX names the
# program. Each failure has a line of its own; the last line says how many were tried and how many were wrong.
set -u
cd "$(dirname "$(readlink -f "$0")")" || exit 1
irpx=${IRPX:?the path of the program}
room=$(mktemp -d) || exit 1
trap 'rm -rf "$room"' EXIT
# A line has as many bytes at most, too.
part=65536
tried=0
wrong=0

# A program that was built without proofs is slow: it gets shorter texts.
rounds=3500
parts=25
if [ "${irpx%.unproved}" != "$irpx" ]; then
    rounds=150
    parts=2
fi

# Checks the text of the file $2. Its name is $1; what is told is $3: `line K`, `legal K` or `illegal I`.
tells() {
    local output status=0 errors='' wanted
    tried=$((tried + 1))
    output=$("$irpx" check <"$2" 2>"$room/errors") || status=$?
    errors=$(cat "$room/errors")
    case $3 in
    line*) wanted="1||irpx: transcript refused: $3" ;;
    legal*) wanted="0|$3|" ;;
    illegal*) wanted="2|$3|" ;;
    esac
    [ "$status|$output|$errors" = "$wanted" ] && return
    wrong=$((wrong + 1))
    echo "failed: $1: $status|$output|$errors, not $wanted"
}

# How many lines end in the first $2 bytes of the file $1.
lines_before() { head -c "$2" "$1" | wc -l; }

# A packet that is allocated and freed again and again, by one seat.
header='{"cancels":[],"completions":[0,0,0,0,0],"dispatches":[],"drivers":[[]],"form":1,"locks":1,"seats":1}'
awk -v rounds="$rounds" -v header="$header" 'BEGIN {
    print header
    for (use = 1; use <= rounds; use++) {
        n = 2 * (use - 1)
        printf "{\"asked\":[],\"call\":{\"do\":\"allocate\",\"size\":1},\"n\":%d,\"reply\":{\"irp\":[0,%d]},\"seat\":0}\n", n, use
        printf "{\"asked\":[],\"call\":{\"do\":\"free\",\"irp\":[0,%d]},\"n\":%d,\"reply\":\"done\",\"seat\":0}\n", use, n + 1
    }
}' >"$room/legal"
size=$(wc -c <"$room/legal")
tells 'a long text' "$room/legal" "legal $((2 * rounds))"

for ((edge = part; edge < size && edge <= parts * part; edge += part)); do
    for place in $((edge - 1)) $edge $((edge + 1)); do
        # A byte that is no text stands in this place, for a newline, too.
        { head -c "$place" "$room/legal"; printf '\377'; tail -c +$((place + 2)) "$room/legal"; } >"$room/text"
        tells "byte $place spoiled" "$room/text" "line $(($(lines_before "$room/legal" "$place") + 1))"
        # The text ends before this place.
        head -c "$place" "$room/legal" >"$room/text"
        lines=$(lines_before "$room/legal" "$place")
        told="line $((lines + 1))"
        [ "$(tail -c 1 "$room/text" | wc -l)" -eq 0 ] || told="legal $((lines - 1))"
        tells "a text of $place bytes" "$room/text" "$told"
    done
done

# A line ends at and beside the edge of a part: its length with its newline, and the text goes on.
for length in $((part - 1)) $part $((part + 1)); do
    { printf "%-$((length - 1))s\n" "$header"; tail -n +2 "$room/legal"; } >"$room/text"
    tells "a header of $length bytes" "$room/text" "legal $((2 * rounds))"
    { printf "%-$((length - 1))s\n" "$header"; echo '{}'; tail -n +2 "$room/legal"; } >"$room/text"
    tells "a header of $length bytes before a line that is refused" "$room/text" 'line 2'
done
{ printf "%-$((part + 1))s\n" "$header"; tail -n +2 "$room/legal"; } >"$room/text"
tells 'a header that is too long' "$room/text" 'line 1'

# Of what is wrong a line that is refused counts first, and of several the first.
sed '6s/"n":4/"n":5/' "$room/legal" >"$room/illegal"
tells 'an entry of another number' "$room/illegal" 'illegal 4'
{ cat "$room/illegal"; printf '%s' "$header"; } >"$room/text"
tells 'the same, and a last line without its newline' "$room/text" "line $((2 * rounds + 2))"
{ cat "$room/illegal" "$room/illegal"; } >"$room/text"
tells 'the same, and a second header' "$room/text" "line $((2 * rounds + 2))"
word='{"do":"acquire","lock":0,"reply":{"status":0},"seat":0,"step":4,"tag":1}'
{ cat "$room/legal"; echo "$word"; } >"$room/words"
tells 'a word line behind' "$room/words" "legal $((2 * rounds))"
{ cat "$room/words"; tail -n 1 "$room/legal"; } >"$room/text"
tells 'an entry behind a word line' "$room/text" "line $((2 * rounds + 3))"
{ sed '2d' "$room/words"; echo "$word"; echo x; } >"$room/text"
tells 'illegal, and a line that is no JSON behind two word lines' "$room/text" "line $((2 * rounds + 3))"

# Lines without an end: they are too long, or there is nothing behind them.
printf ' ' >"$room/text"
tells 'a space' "$room/text" 'line 1'
spaces() { head -c "$1" /dev/zero | tr '\0' ' '; }
spaces 1000000 >"$room/text"
tells 'a line of spaces' "$room/text" 'line 1'
{ cat "$room/legal"; spaces 1000000; } >"$room/text"
tells 'spaces behind a text' "$room/text" "line $((2 * rounds + 2))"
{ cat "$room/illegal"; spaces $part; echo; } >"$room/text"
tells 'a line of spaces behind an illegal entry' "$room/text" "line $((2 * rounds + 2))"

# Texts that come in pieces, through a pipe.
mkfifo "$room/pipe"
for told in "legal $((2 * rounds))" "line $((2 * rounds + 2))"; do
    {
        head -c 100 "$room/legal"
        sleep 0.1
        tail -c +101 "$room/legal" | head -c 100000
        sleep 0.1
        tail -c +100101 "$room/legal"
        [ "${told%% *}" = legal ] || printf x
    } >"$room/pipe" &
    tells "a text in pieces: $told" "$room/pipe" "$told"
    wait
done

# A text that is longer than the memory that the program may have, in units of 1,024 bytes. A program that was built
# without proofs watches its memory, and starts with more than that.
if [ "${irpx%.unproved}" = "$irpx" ]; then
    { echo "$header"; yes "$(sed -n 2p "$room/legal")" | head -n 900000; } >"$room/text"
    ulimit -v 30000
    tells 'a text longer than memory' "$room/text" 'illegal 1'
    echo x >>"$room/text"
    tells 'the same, and a line that is no JSON' "$room/text" 'line 900002'
    spaces 70000000 >"$room/text"
    tells 'a line longer than memory' "$room/text" 'line 1'
fi

echo "tried: $tried $wrong texts in blocks"
[ "$wrong" -eq 0 ]
