#!/bin/bash
# Shows that `irp text`, `page`, `packet` and `why` put names and lines from the host's record beside entries and answers, that
# a page has them escaped, and that a record that is short, spoiled or of another transcript is told and left out. IRP_VIEW names irp_view; without it, it is the one that bin/irp_view runs.
# Each failure has a line of its own. Ends with status 0 where all was as expected, else with 1.
set -u
cd "$(dirname "$(readlink -f "$0")")" || exit 1
IRP_VIEW=$(readlink -f "${IRP_VIEW:-$(../bin/program irp_view quick)}") || exit 1
export IRP_VIEW
# shellcheck source=parts/counting.bash
. ./parts/counting.bash

# Writes the places of the transcript $1 beside it: of each entry and answer a line of its own, with odd names.
place() {
    python3 - "$1" <<'ENDS'
import json, sys, zlib
path = sys.argv[1]
text = open(path, 'rb').read()
head, *lines = map(json.loads, text.decode().splitlines())
entries = [it for it in lines if 'n' in it]
at = lambda line: {'call': 'IoCallDriver', 'file': 'a<b>&"c.c', 'function': 'F<i>', 'line': line}
names = lambda kind, count: [f'{kind}{it}' for it in range(count)]
made = [{'bytes': len(text), 'cancels': names('C', len(head['cancels'])),
         'completions': [names('R', it) for it in head['completions']], 'crc': zlib.crc32(text),
         'devices': ['bus <&>', 'filter'], 'dispatches': names('Dispatch', len(head['dispatches'])), 'entries': len(entries)}]
for it in entries:
    asked = [at(1000 * it['n'] + turn) for turn in range(len(it['asked']))]
    by = {**at(it['n']), 'driver': 'other'} if it['n'] else {}
    by = {**by, 'under': 'R<>'} if it['n'] == 2 else {**by, 'by_host': True} if it['n'] == 3 else by
    made.append({'asked': asked, 'by': by, 'n': it['n']})
open(path + '.places', 'w').write(''.join(json.dumps(it) + '\n' for it in made))
ENDS
}

# What is left of a text without what stands in brackets, and without the line that tells of them.
plain() {
    sed -e '1{/^In brackets/d}' -e 's/ \[[^]]*\]//g'
}

kept=$room/kept.transcript
cp ../examples/completing/a_kept_packet_is_sent_again.transcript "$kept"
place "$kept"
"$IRP_VIEW" text "$kept" >"$room/wanted"
../bin/irp text "$kept" >"$room/text" 2>"$room/told"
meets 'text is irp_view'\''s, but for what stands in brackets' cmp -s "$room/wanted" <(plain <"$room/text")
meets 'nothing is told' [ ! -s "$room/told" ]
meets 'a device has its driver' grep -qF 'D0 [bus <&>] dispatch 0 [Dispatch0]: ' "$room/text"
sent=$(grep -m 1 -n '"do":"call_driver"' "$kept" | cut -d: -f1)
entry=$((sent - 2))
meets 'an entry has its line, and the driver where its file doesn'\''t tell it' \
    grep -qE "^ +$entry  .* \[a<b>&\"c\.c:$entry in F<i>, other\]$" "$room/text"
asked=$(python3 -c 'import json, sys; print(sum(len(json.loads(it).get("asked", [])) for it in open(sys.argv[1])))' "$kept")
meets 'each answer has its line' [ "$(grep -cE '\[a<b>&"c\.c:[0-9]+ in F<i>\]$' "$room/text")" -eq "$asked" ]
meets 'answers have theirs in order' grep -qF "[a<b>&\"c.c:$((1000 * entry + 1)) in F<i>]" "$room/text"
meets 'another call is named' grep -qF '[by IoCallDriver: a<b>&"c.c:1 in F<i>, other]' "$room/text"
meets 'the routine that ran is named' grep -qF 'a<b>&"c.c:2 in F<i> under R<>, other]' "$room/text"
meets 'a call of the host itself says so' \
    grep -qE '^ +3  .* \[made by the host, so that the run goes on after a<b>&"c\.c:3 in F<i>, other\]$' "$room/text"
meets 'where there is no place there is none' grep -qE '^ +0  .* -> D0 \[bus <&>\]$' "$room/text"
../bin/irp packet 0 1 --entries "$entry..$sent" "$kept" >"$room/packet"
meets 'one packet' grep -qF "c.c:$entry in F<i>" "$room/packet"

../bin/irp page "$kept" >"$room/page.html"
meets 'a page has its names, escaped' grep -qF 'D0 bus &lt;&amp;&gt;' "$room/page.html"
meets 'a page has its lines, escaped' grep -qF "a&lt;b&gt;&amp;&quot;c.c:$entry in F&lt;i&gt;" "$room/page.html"
meets 'a page has each answer'\''s line' [ "$(grep -oE 'c\.c:[0-9]{4,} in' "$room/page.html" | sort -u | wc -l)" -eq \
    "$(grep -oE 'c\.c:[0-9]{4,} in' "$room/text" | sort -u | wc -l)" ]

why=$room/why.transcript
cp ../examples/why/completed_twice.transcript "$why"
place "$why"
../bin/irp why "$why" >"$room/text"
meets 'the status is irp_view'\''s' [ $? -eq 2 ]
meets 'the wrong entry has its line' grep -qE '^entry 5 \(line 7\): .* \[by IoCallDriver: a<b>&"c\.c:5 in F<i>, other\]$' "$room/text"

# Checks that the places as they stand are told as $1 and left out: in text, page and why.
is_left_out() {
    local word
    for word in text why; do
        "$IRP_VIEW" "$word" "$why" >"$room/wanted"
        ../bin/irp "$word" "$why" >"$room/text" 2>"$room/told"
        meets "$word: $1: its status" [ $? -eq "$([ $word = why ] && echo 2 || echo 0)" ]
        meets "$word: $1: it is irp_view's" cmp -s "$room/wanted" "$room/text"
        meets "$word: $1: it is told" [ "$(cat "$room/told")" = \
            "why.transcript.places $1: names, lines and faults of drivers are left out" ]
    done
    ../bin/irp page "$why" >"$room/page.html" 2>"$room/told"
    meets "page: $1: it is as without a record" cmp -s "$room/plain.html" "$room/page.html"
    meets "page: $1: it is told" grep -q "places $1" "$room/told"
}

mv "$why.places" "$room/right"
../bin/irp page "$why" >"$room/plain.html"
meets 'without a file of places all is irp_view'\''s' cmp -s <("$IRP_VIEW" text "$why" 2>&1) <(../bin/irp text "$why" 2>&1)
head -n -1 "$room/right" >"$why.places"
is_left_out 'ends early'
cp "$kept.places" "$why.places"
is_left_out 'is of another transcript'
sed 's/"crc": /"crc": 1/' "$room/right" >"$why.places"
is_left_out 'is of another transcript'
for spoil in '1d' '3s/^/!/' '3s/.*/[]/' '1s/"devices"/"d"/' '4s/"line": [0-9]*/"line": "x"/' '4s/"function"/"f"/'; do
    sed "$spoil" "$room/right" >"$why.places"
    is_left_out "can't be read"
done
head -c 1000 /dev/urandom >"$why.places"
is_left_out "can't be read"
: >"$why.places"
is_left_out "can't be read"

meets 'standard input has no places' cmp -s <("$IRP_VIEW" text <"$kept") <(../bin/irp text <"$kept")
finish 'names and lines'
