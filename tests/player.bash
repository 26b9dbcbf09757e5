#!/bin/bash
# Plays scripts on the host by the player (tests/player), where there is a C compiler: examples, and scripts made by chance.
cd "$(dirname "$(readlink -f "$0")")" || exit 1
if ! command -v cc >/dev/null; then
    echo 'player: not tried, since there is no C compiler'
    exit 0
fi
exec python3 player/test.py
