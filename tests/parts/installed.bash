#!/bin/bash
# Tries an installed `irp`, as its user would: tests/release.bash runs this with the package's `irp` on PATH and an empty
# folder as HOME. $1 is the folder that the package's share/ stands in, $2 the commit, $3 whether everything is tried, or
# what takes seconds. Each failure has a line of its own, and the last line is `N passed, M failed`.
set -u
share=$1 commit=$2 amount=$3
passed=0
failed=0
lessons=$share/irp/lessons
examples=$share/irp/examples
cd "$HOME" || exit 1

# Checks that a command ends with status $1, and that what it prints has the text $2.
gives() {
    local wanted=$1 has=$2 said ended
    shift 2
    said=$("$@" 2>&1 </dev/null)
    ended=$?
    if [ "$ended" -eq "$wanted" ] && grep -qF -- "$has" <<<"$said"; then
        passed=$((passed + 1))
    else
        failed=$((failed + 1))
        printf 'failed: %s: status %s\n%s\n' "$*" "$ended" "${said:0:1500}"
    fi
}

gives 0 "commit $commit" irp version
gives 0 'irp_orders: not proved' irp version
gives 0 'irp WORD' irp
irp demo >made
gives 0 '' cmp made "$examples/sending/one_device_finishes_one_packet.transcript"
irpx demo >made
gives 0 '' cmp made "$examples/sending/one_device_finishes_one_packet.transcript"
gives 0 'legal 4' irp check made
gives 0 'IoCompleteRequest' irp text made
gives 0 'refused":"Ended"' irp run "$examples/practice/completed_twice.words"
gives 0 '"do":"complete"' irp words json "$examples/practice/completed_twice.words"
gives 2 'differs in' irp why "$examples/why/completed_twice.transcript"
gives 0 'outcomes: 3, of 3 orders' irp orders "$examples/orders/a_cancel_against_a_completion.script"
gives 0 'sage: irp play' irp play --help
gives 4 'irp --help lists them' irp nothing

# Drivers in C. The host is compiled into a folder of the user's.
cp "$lessons/01_first_dispatch/driver.c" wrong.c
sed 's/^    return STATUS_SUCCESS;$/    IoCompleteRequest(Irp, IO_NO_INCREMENT);\n&/' wrong.c >null.c
gives 0 'clean: ' irp drive null.c
gives 0 '' test -d "${XDG_CACHE_HOME:-$HOME/.cache}/irp"
gives 1 'FAULT Lost: wrong.c:' irp drive --sarif wrong.sarif --page wrong.html wrong.c
gives 0 '"ruleId": "Lost"' cat wrong.sarif
gives 0 'wrong.c:' cat wrong.html
gives 1 'irp text ' irp drive wrong.c
gives 0 'lesson 1: right' irp lesson 1 null.c
gives 1 'Think: ' irp lesson 1 wrong.c

# Manual pages.
gives 0 '.SH SYNOPSIS' irp man irp
if command -v man >/dev/null; then gives 0 'irp WORD' man -M "$share/man" irp; fi
if [ "$amount" = all ]; then
    gives 0 'no fault' irp drive --every-order null.c
    gives 0 ': 1 equal' irp play "$examples/sending/one_device_finishes_one_packet.script"
fi
echo "$passed passed, $failed failed"
[ "$failed" -eq 0 ]
