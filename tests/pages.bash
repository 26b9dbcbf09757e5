#!/bin/bash
# Draws a page of each example, looks at it, and compares what it says with `irp text`; then opens ten pages in headless
# Chromium, which CHROMIUM names. Where there is none it says so; with IRP_PAGES=all, as `bin/test --page` sets it, that is a
# failure. The tables of names are those that irp_words prints. IRP_VIEW and the others name the programs; without them, they
# are those that bin/program builds. Ends with status 0 where all was as expected, else with 1.
set -u
cd "$(dirname "$(readlink -f "$0")")" || exit 1
IRP_VIEW=${IRP_VIEW:-$(../bin/program irp_view quick)} || exit 1
IRP_WORDS=${IRP_WORDS:-$(../bin/program irp_words quick)} || exit 1
IRP_ORDERS=${IRP_ORDERS:-$(../bin/program irp_orders quick)} || exit 1
IRPX=${IRPX:-$(../bin/program irpx quick)} || exit 1
export IRP_VIEW IRP_WORDS IRP_ORDERS IRPX
failed=0
if ! cmp -s ../page/tables.json <("$IRP_WORDS" tables); then
    echo 'failed: page/tables.json is not what irp words tables prints'
    failed=1
fi
pages/drawn.py || failed=1
if ! command -v "${CC:-cc}" >/dev/null; then
    echo 'passed over, for want of a C compiler: pages in a browser'
elif command -v "${CHROMIUM:-chromium}" >/dev/null; then
    pages/browsed.py || failed=1
else
    echo 'passed over, for want of Chromium: pages in a browser'
    [ "${IRP_PAGES:-}" != all ] || failed=1
fi
exit "$failed"
