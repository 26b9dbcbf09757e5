#!/bin/bash
# Tries the schema of scripts and the colours of words: whether they are of the tables that irp_words prints; and, where
# Python has the package jsonschema, whether the schema takes what is a script. IRP_WORDS names the program.
cd "$(dirname "$(readlink -f "$0")")" || exit 1
irp_words=${IRP_WORDS:-$(../bin/program irp_words quick)} || exit 1
"$irp_words" tables | python3 ../schema/make_schema.py --check || exit 1
if ! python3 -c 'import jsonschema' 2>/dev/null; then
    echo 'schema: not tried, since Python has no package jsonschema'
    exit 0
fi
exec python3 schema.py
