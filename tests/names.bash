#!/bin/bash
# Shows that irp_view prints each major function code, each status and each refusal by its name in Windows, and the others
# by their numbers, as tests/second_reading/names_in_windows.py has them, and that the tables of irp_words have the same.
# IRP_VIEW and IRP_WORDS name the programs.
cd "$(dirname "$(readlink -f "$0")")" || exit 1
irp_view=${IRP_VIEW:-$(../bin/program irp_view quick)} || exit 1
irp_words=${IRP_WORDS:-$(../bin/program irp_words quick)} || exit 1
if ! command -v python3 >/dev/null; then
    echo 'names: not tried, since there is no Python'
    exit 0
fi
exec python3 -B names.py "$irp_view" "$irp_words"
