# Many seats on several workers. Part of check_all.

# Prints a script of $1 seats that make $2 rounds each, without devices. A round: Allocate, Complete for a device that
# doesn't own the packet, Free, and Free again.
rounds_script() {
    local seats=$1 rounds=$2 seat round between=
    printf '{"form":1,"seats":%d,"locks":1,"completions":[],"cancels":[],"dispatches":[],"drivers":[],"setup":[],"steps":[' "$seats"
    for ((round = 0; round < rounds; round++)); do
        for ((seat = 0; seat < seats; seat++)); do
            printf '%s{"seat":%d,"do":"allocate","size":1,"as":"s%d"},' "$between" "$seat" "$seat"
            printf '{"seat":%d,"do":"complete","by":9,"irp":"s%d","status":0,"information":0},' "$seat" "$seat"
            printf '{"seat":%d,"do":"free","irp":"s%d"},{"seat":%d,"do":"free","irp":"s%d"}' "$seat" "$seat" "$seat" "$seat"
            between=,
        done
    done
    printf ']}'
}

# How often each reply stands in the transcript $1; a free packet's second Free is NoIrp or Stale, as others allocate.
replies_of() {
    grep -o '"reply":.*,"seat"' "$1" |
        sed -e 's/"reply":{"irp":.*/irp/' -e 's/"reply":{"refused":"\(NoIrp\|Stale\)"}.*/gone/' -e 's/"reply":\(.*\),"seat"/\1/' |
        sort | uniq -c | tr -s ' '
}

# Runs the script of $1 seats and $2 rounds on $3 workers: each seat has its four entries a round, and the transcript is
# legal.
rounds_on() {
    local entries=$(($1 * $2 * 4)) each=$(($1 * $2))
    rounds_script "$1" "$2" >"$kept/script"
    run run --workers "$3" <"$kept/script"
    ended "$1 seats, $3 workers" 0 ''
    cp "$kept/output" "$kept/transcript"
    replies_of "$kept/transcript" >"$kept/replies"
    printf ' %d %s\n' "$each" '"done"' "$each" gone "$each" irp "$each" '{"refused":"NotOwner"}' >"$kept/expected"
    meets "$1 seats, $3 workers: replies" cmp -s "$kept/expected" "$kept/replies"
    judged "$1 seats, $3 workers: check" "$kept/transcript" "legal $entries" 0
}

rounds_on 4 250 4
for workers in 2 8 64; do
    rounds_on 64 16 "$workers"
done

# One worker keeps the script's order, so it prints the same each time.
rounds_script 4 250 >"$kept/script"
run run --workers 1 <"$kept/script"
ended 'four seats, one worker' 0 ''
cp "$kept/output" "$kept/transcript"
run run --workers 1 <"$kept/script"
left 'four seats, one worker, again' 0 "$kept/transcript" ''

