#!/bin/bash
# Tries the recorder of any I/O manager (drivers/recorder.h) on the host, where there is a C compiler.
cd "$(dirname "$(readlink -f "$0")")" || exit 1
if ! command -v cc >/dev/null; then
    echo 'recorder: not tried, since there is no C compiler'
    exit 0
fi
exec python3 recorder/test.py
