#!/usr/bin/env bash
# Checks docs/segment.schema.json: it is a schema, it accepts every example, and it refuses each of a table of wrong files.
# Needs python3 with the package jsonschema; where that is missing, it says so and checks nothing.
set -eu
here=$(cd "$(dirname "${BASH_SOURCE[0]}")" && pwd)
if ! python3 -c 'from jsonschema import Draft202012Validator' 2>/dev/null; then
    echo "check_schema: skipped, there is no python3 with jsonschema"
    exit 0
fi
exec python3 "$here/check_schema.py"
