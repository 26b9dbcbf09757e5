#!/bin/bash
# Tries the lessons: each one's file has its mistake told, with a question, and answers are judged as they should be: a telling
# selection of what lessons/try has; a class is graded (lessons/graded), and slides are written (lessons/shown). With words, only
# what lessons/try chooses by them.
# IRPX, IRP_VIEW and IRP_ORDERS name the programs; without them, they are those that bin/program builds. The last line is
# `N passed, M failed`. Ends with status 0 where nothing failed, else with 1.
set -u
cd "$(dirname "$(readlink -f "$0")")" || exit 1
IRPX=${IRPX:-$(../bin/program irpx quick)} || exit 1
IRP_VIEW=${IRP_VIEW:-$(../bin/program irp_view quick)} || exit 1
IRP_ORDERS=${IRP_ORDERS:-$(../bin/program irp_orders quick)} || exit 1
export IRPX IRP_VIEW IRP_ORDERS
if ! command -v python3 >/dev/null || ! command -v "${CC:-cc}" >/dev/null; then
    echo "ok: lessons: there is no Python or no C compiler here"
    exit 0
fi
[ $# -eq 0 ] || exec lessons/try "$@"
passed=0
failed=0
for it in lessons/try lessons/graded lessons/shown; do
    said=$("$it" 2>&1)
    read -r right _ wrong _ <<<"$(tail -n 1 <<<"$said")"
    sed '$d' <<<"$said"
    passed=$((passed + ${right:-0}))
    failed=$((failed + ${wrong:-1}))
done
echo "$passed passed, $failed failed"
[ "$failed" -eq 0 ]
