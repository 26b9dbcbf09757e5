#!/bin/bash
# Shows that `irp story` tells of a transcript what docs/RULES.md says: the lines of tests/stories were worked out from the
# rules by hand, and of each example the model of tests/second_reading has the same packets. That of a transcript with a
# line that is refused the story of the lines before it is told, without a verdict; and that a text without lines has a
# verdict alone. IRP_VIEW names the program; without it, it is the one that bin/irp_view runs. Each failure has a line of
# its own. Ends with status 0 where all was as expected, else with 1.
set -u
cd "$(dirname "$(readlink -f "$0")")" || exit 1
irp_view=${IRP_VIEW:-$(../bin/program irp_view quick)} || exit 1
room=$(mktemp -d) || exit 1
trap 'rm -rf "$room"' EXIT
tried=0
wrong=0

# Checks that of the transcript in the file $3 the lines in the file $2 are told, with status $1, from the file and from
# standard input.
tells() {
    local status
    for how in file input; do
        tried=$((tried + 1))
        if [ "$how" = file ]; then "$irp_view" story "$3"; else "$irp_view" story <"$3"; fi >"$room/told" 2>"$room/errors"
        status=$?
        [ "$status" -eq "$1" ] && cmp -s "$2" "$room/told" && continue
        wrong=$((wrong + 1))
        echo "failed: story: $3, by $how: status $status, $(cmp "$2" "$room/told" 2>&1)"
    done
}

for story in stories/*.story; do
    name=$(basename "$story" .story)
    tells 0 "$story" "$(ls ../examples/*/"$name.transcript" | tail -n 1)"
done

# The sixth line is refused: five stand before it.
keeper=../examples/completing/a_keeper_keeps_a_packet.transcript
sed '6s/attach/atach/' "$keeper" >"$room/refused"
head -n 5 stories/a_keeper_keeps_a_packet.story >"$room/begun"
tells 1 "$room/begun" "$room/refused"
grep -q '^irp: transcript refused: line 6' "$room/errors" || { wrong=$((wrong + 1)) && echo 'failed: story: the line that is refused'; }

echo '{"entries":0,"verdict":"legal","wrong_at":null}' >"$room/none"
tells 0 "$room/none" empty.transcript

# Each line of each example's story is an object whose keys are in order, an entry's line has the transcript's own, and the
# verdict is that of `irpx check`.
tried=$((tried + 1))
python3 - "$irp_view" ../examples/*/*.transcript >"$room/faults" <<'END'
import json
import subprocess
import sys

for name in sys.argv[2:]:
    made = subprocess.run([sys.argv[1], "story", name], capture_output=True, text=True, check=False)
    with open(name, encoding="utf-8") as text:
        lines = text.read().split("\n")
    told = made.stdout.splitlines()
    values = [json.loads(it) for it in told]
    if any(json.dumps(one, separators=(",", ":"), sort_keys=True) != it for one, it in zip(values, told)):
        print(f"failed: story: {name}: a line isn't in the compact layout")
    if made.returncode == 0:
        own = [json.dumps(next(iter(it.values())) if len(it) == 1 else it["entry"], separators=(",", ":"), sort_keys=True)
               for it in values[:-1]]
        if own != lines[:-1] or set(values[-1]) != {"entries", "verdict", "wrong_at"}:
            print(f"failed: story: {name}: its lines aren't those of the transcript, and a verdict")
END
[ ! -s "$room/faults" ] || { wrong=$((wrong + 1)) && cat "$room/faults"; }

# The second reading of the rules has the same packets behind each entry, and finds the same entry wrong.
tried=$((tried + 1))
python3 -B second_reading/stories.py "$irp_view" ../examples/*/*.transcript >"$room/faults" 2>&1 || echo 'failed: story: the model' >>"$room/faults"
[ ! -s "$room/faults" ] || { wrong=$((wrong + 1)) && sed 's/^/failed: story: /' "$room/faults"; }
echo "tried: $tried $wrong stories"
[ "$wrong" -eq 0 ]
