#!/bin/sh
# Makes every .tables file in this folder from the .json file of the same name.
# The files in this folder were made with flatc version 2.0.8, from the Debian
# 12 package flatbuffers-compiler 2.0.8+dfsg1-2.
#
# The file rays.json is long and was written by: python3 make_rays.py > rays.json
# This script does not write it again.
set -eu

cd "$(dirname "$0")"

if ! command -v flatc >/dev/null 2>&1; then
    echo "make.sh: flatc is not installed, so no .tables file was made." >&2
    echo "make.sh: On Debian, install it with: apt-get install flatbuffers-compiler" >&2
    exit 1
fi

# flatc names its output x.bin. It is written to a temporary folder and then
# moved here under the name x.tables.
out=$(mktemp -d)
trap 'rm -rf "$out"' EXIT

for name in one preview rays; do
    flatc --binary --strict-json -o "$out" layout.fbs "$name.json"
    # The copy is written with cat so that it gets the usual file permissions.
    cat "$out/$name.bin" > "$name.tables"
    echo "made $name.tables ($(wc -c < "$name.tables") bytes)"
done
