# What tests share: a folder, $room, that is there until the test ends, and counts of what was tried and what was wrong.
# A test sources this file once it stands in this repository's folder `tests`.
room=$(mktemp -d) || exit 1
trap 'rm -rf "$room"' EXIT
tried=0
wrong=0

# Counts one check. Its name is $1; the rest is a command that succeeds where the check is met.
meets() {
    local name=$1
    shift
    tried=$((tried + 1))
    "$@" && return
    wrong=$((wrong + 1))
    echo "failed: $(basename "$0" .bash): $name"
}

# Tells how many checks of the kind $1 were tried, and ends.
finish() {
    echo "tried: $tried $wrong $1"
    [ "$wrong" -eq 0 ]
    exit
}
