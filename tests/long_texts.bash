#!/bin/bash
# Gives `irpx check` and `irp_view why`, `text` and `packet` texts of up to a million lines (long_texts.py). IRPX and
# IRP_VIEW name the programs; without them, they are those that bin/irpx and bin/irp_view run. Ends with status 0 where
# all was as expected, else with 1. It passes over all for a program that was built without proofs, which takes too long.
set -u
cd "$(dirname "$(readlink -f "$0")")" || exit 1
irpx=${IRPX:-$(../bin/program irpx quick)} || exit 1
irp_view=${IRP_VIEW:-$(../bin/program irp_view quick)} || exit 1
case $irpx$irp_view in
*.unproved*)
    echo 'passed over, for want of a proved program: long texts'
    exit 0
    ;;
esac
if ! python3 -c 'import sys; sys.exit(sys.version_info < (3, 9))' 2>/dev/null; then
    echo 'passed over, for want of Python 3.9: long texts'
    exit 0
fi
exec python3 -B ./long_texts.py "$irpx" "$irp_view"
