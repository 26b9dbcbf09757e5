# Texts that are read, cut, refused or changed: sourced by check_all, whose functions it uses.

# Runs the script in the file $2, and checks what is told of it, $3: `taken`, or its first fault.
told_of_script() {
    run run <"$2"
    if [ "$3" = taken ]; then
        ended "$1" 0 ''
    else
        left "$1" 1 /dev/null "irpx: script refused: $3"
    fi
}

# Checks the transcript in the file $2, and what is told of it, $3: `line K`, `legal K` or `illegal I`.
told_of_transcript() {
    case $3 in
    line*)
        run check <"$2"
        left "$1" 1 /dev/null "irpx: transcript refused: $3"
        ;;
    legal*) judged "$1" "$2" "$3" 0 ;;
    illegal*) judged "$1" "$2" "$3" 2 ;;
    esac
}

while IFS= read -r wanted; do
    case $wanted in '#'*) continue ;; esac
    IFS= read -r text
    printf '%s' "$text" >"$kept/text"
    told_of_script "script $text" "$kept/text" "$wanted"
done <refused/scripts.txt

while IFS= read -r wanted; do
    case $wanted in '#'*) continue ;; esac
    : >"$kept/text"
    while IFS= read -r line && [ "$line" != end ]; do printf '%s\n' "$line" >>"$kept/text"; done
    told_of_transcript "transcript $(tail -n 1 "$kept/text" | cut -c 1-200)" "$kept/text" "$wanted"
done <refused/transcripts.txt

# The script of one device and one packet, without spaces.
demo=$(tr -d '\n ' <"$examples"/sending/one_device_finishes_one_packet.script)

# Runs that script with the text $1, which stands in it once, changed to $2. What is told is $3.
changed_script() {
    printf '%s' "${demo/"$1"/"$2"}" >"$kept/text"
    told_of_script "script with ${2:0:80}" "$kept/text" "$3"
}

# The script with a list under the key $1 of $3 times the item $2 and then $4; it had $5. What is told is $6.
long_list() {
    local items
    items=$(printf "$2,%.0s" $(seq "$3"))
    changed_script "$5" "\"$1\":[$items$4]" "$6"
}

watch='["watch","continue","continue"]'
keeper='["keeper","keep","keep"]'
two="$watch,[\"free\",\"keep\",\"keep\"]"
none='"completions":[]'
long_list completions "$watch" 255 "$watch" "$none" taken
long_list completions "$watch" 256 "$keeper" "$none" taken
long_list completions "$watch" 256 "$watch" "$none" 'S8 completions 256'
long_list completions "$two" 256 "$keeper" "$none" taken
long_list completions "$two" 256 "$watch" "$none" 'S8 completions 512'
long_list completions "$watch" 256 '["watch","keep","continue"]' "$none" 'S5 completions 256'
long_list completions "$watch" 256 0 "$none" 'S4 completions 256'
long_list cancels '["leave"]' 255 '["leave"]' '"cancels":[]' taken
long_list cancels '["leave"]' 256 '["leave"]' '"cancels":[]' 'S8 cancels 256'
plan='"dispatches":[["finish",0,5]]'
long_list dispatches '["skip"]' 255 '["skip"]' "$plan" taken
long_list dispatches '["skip"]' 256 '["skip"]' "$plan" 'S8 dispatches 256'
long_list dispatches '["skip"]' 256 '["hold",0]' "$plan" 'S6 dispatches 256'
table='"drivers":[[[3,0]]]'
long_list drivers '[[3,0]]' 63 '[]' "$table" taken
long_list drivers '[[3,0]]' 64 '[]' "$table" 'S8 drivers 64'
long_list drivers '[[3,0]]' 64 '[[3,1]]' "$table" 'S7 drivers 64'

# A script names at most 4,096 labels, those of setup among them.
setup=$(printf '{"seat":0,"do":"look","irp":"a%d"},' $(seq 4095))
look='{"seat":0,"do":"look","irp":"last"}'
# (A program that was built without proofs checks so much that it takes minutes here.)
if [ "${irpx%.unproved}" = "$irpx" ]; then
    changed_script '"setup":[]' "\"setup\":[$setup{\"seat\":0,\"do\":\"look\",\"irp\":\"a\"}]" taken
fi
changed_script '"setup":[]' "\"setup\":[$setup$look]" 'S8 steps 1'
changed_script '"setup":[]' "\"setup\":[$setup$look,{\"seat\":0,\"do\":\"free\",\"irp\":\"b\"}]" 'S8 setup 4096'

# Texts at the limit of 1,048,576 bytes, deep ones, and bytes that are no text.
spaces() { head -c "$1" /dev/zero | tr '\0' ' '; }
spaces 1048576 >"$kept/text"
told_of_script '1,048,576 spaces' "$kept/text" S2
spaces 1048577 >"$kept/text"
told_of_script '1,048,577 spaces' "$kept/text" S1
{ printf '%s' "$demo" && spaces $((1048576 - ${#demo})); } >"$kept/text"
told_of_script 'a script of 1,048,576 bytes' "$kept/text" taken
printf ' ' >>"$kept/text"
told_of_script 'a script of 1,048,577 bytes' "$kept/text" S1
for case in 127:S3 128:S2; do
    { printf '[%.0s' $(seq "${case%:*}") && printf ']%.0s' $(seq "${case%:*}"); } >"$kept/text"
    told_of_script "lists ${case%:*} deep" "$kept/text" "${case#*:}"
done
printf '"\377"' >"$kept/text"
told_of_script 'bytes that are no text' "$kept/text" S2

# A line of 65,536 bytes is read, and no longer one.
for case in '65536:legal 0' '65537:line 1'; do
    header=$(head -n 1 "$examples"/sending/one_device_finishes_one_packet.transcript)
    { printf '%s' "$header" && spaces $((${case%%:*} - ${#header})) && echo; } >"$kept/text"
    told_of_transcript "a line of ${case%%:*} bytes" "$kept/text" "${case#*:}"
done

# Transcripts changed in one thing: the file, what sed does to it, and what is told.
while IFS='|' read -r file change wanted; do
    sed "$change" "$examples/$file.transcript" >"$kept/text"
    told_of_transcript "$file changed by $change" "$kept/text" "$wanted"
done <<'END'
sending/one_device_finishes_one_packet|s/"reply":{"status":0}/"reply":{"status":259}/|illegal 3
sending/one_device_finishes_one_packet|s/"n":1,/"n":7,/|illegal 1
sending/one_device_finishes_one_packet|s/"irp":\[0,1\]/"irp":[5,1]/g;s/"shown":\[0,0,1/"shown":[0,5,1/|legal 4
sending/one_device_finishes_one_packet|s/"reply":{"irp":\[0,1\]}/"reply":{"irp":[0,2]}/|illegal 1
sending/one_device_finishes_one_packet|s/"shown":\[0,0,1,3,1,7/"shown":[0,0,1,3,1,8/|illegal 3
sending/one_device_finishes_one_packet|s/"asked":\[{.*}\],"call"/"asked":[],"call"/|illegal 3
removal/a_remove_lock_is_drained|s/"drained":true/"drained":false/|illegal 2
removal/a_remove_lock_is_drained|s/"drained":false/"drained":true/|illegal 1
removal/a_remove_lock_is_drained|s/"drained":false,"lock":0/"drained":false,"lock":null/|illegal 1
sending/one_device_finishes_one_packet|s/"do":"create_device"/"do":"create"/|line 2
END

# Headers that are refused: one with a routine of each rule and a cancel routine, and what sed does to it.
header='{"cancels":["either"],"completions":[1,1,1,1,1],"dispatches":[[1,1,1,1,1,1]],"drivers":[[[3,0]]],'
header+='"form":1,"locks":1,"seats":1}'
echo "$header" >"$kept/text"
told_of_transcript 'a header' "$kept/text" 'legal 0'
while IFS= read -r change; do
    sed "$change" <<<"$header" >"$kept/text"
    told_of_transcript "a header changed by $change" "$kept/text" 'line 1'
done <<'END'
s/\[\[1,/[[2,/
s/\[\[1,1,/[[1,2,/
s/\[\[1,1,1,/[[1,1,2,/
s/\[\[1,1,1,1,/[[1,1,1,2,/
s/\[\[1,1,1,1,1,/[[1,1,1,1,2,/
s/,1\]\]/,2]]/
s/,1\]\]/]]/
s/,1\]\]/,1,0]]/
s/\[1,1,1,1,1\]/[1,1,1,1,1,1]/
s/\[1,1,1,1,1\]/[1,1,1,1,257]/
s/\[1,1,1,1,1\]/[1,1,1,1,-1]/
s/\[1,1,1,1,1\]/[1,1,1,1,1.0]/
s/"either"/"neither"/
s/\["either"\]/0/
s/\[\[\[3,0\]\]\]/[[3,0]]/
s/\[\[\[3,0\]\]\]/[[[3]]]/
s/\[\[\[3,0\]\]\]/[[[256,0]]]/
s/"form":1/"form":0/
s/"form":1/"form":3/
s/"form":1/"form":"1"/
s/"locks":1/"locks":4294967297/
s/"seats":1/"seats":1,"slots":1/
s/"seats":1/"Seats":1/
s/"cancels":\["either"\],//
s/"completions":[^a-z]*,"d/"d/
s/"dispatches":[^a-z]*,"d/"d/
s/"drivers":[^a-z]*,"f/"f/
s/"locks":1,//
s/,"seats":1//
s/^/[/;s/$/]/
s/}$//
END
{ echo "$header" && echo "$header"; } >"$kept/text"
told_of_transcript 'two headers' "$kept/text" 'line 2'

# A packet is used again, and another seat names its first use in each call that takes a packet: Stale each time.
stale=
for call in '"do":"free"' '"do":"reuse","status":0' '"do":"set_next","by":"o","major":3,"word":7' \
    '"do":"copy_to_next","by":"o"' '"do":"skip","by":"o"' '"do":"set_routine","by":"o","set":["watch",0,0,"sec"]' \
    '"do":"mark_pending","by":"o"' '"do":"call_driver","by":"o","target":0' '"do":"complete","by":"o","status":0,"information":0' \
    '"do":"set_cancel_routine","by":"o","cancel":null' '"do":"cancel"' '"do":"look"'; do
    stale+=",{\"seat\":1,\"irp\":[0,1],$call}"
done
steps='{"seat":0,"do":"create_device","driver":0,"lock":0},{"seat":0,"do":"allocate","size":1,"as":"a"},'
steps+="{\"seat\":0,\"do\":\"reuse\",\"irp\":\"a\",\"status\":0}$stale,{\"seat\":0,\"do\":\"free\",\"irp\":\"a\"}"
before='"completions":[],"cancels":[],"dispatches":[],"drivers":[[]],"setup":[]'
printf '{"form":1,"seats":2,"locks":1,%s,"steps":[%s]}' "$before" "$steps" >"$kept/text"
run run <"$kept/text"
ended 'stale references' 0 ''
cp "$kept/output" "$kept/transcript"
grep -o '"reply":.*' "$kept/transcript" >"$kept/replies"
{
    printf '"reply":{%s},"seat":0}\n' '"device":0' '"irp":[0,1]' '"irp":[0,2]'
    for _ in {1..12}; do echo '"reply":{"refused":"Stale"},"seat":1}'; done
    echo '"reply":"done","seat":0}'
} >"$kept/expected"
meets 'stale references: replies' cmp -s "$kept/expected" "$kept/replies"
judged 'stale references: check' "$kept/transcript" 'legal 16' 0
