#!/bin/sh
# Compares the cases of crates/tables_cases with the Verifier of the C++ FlatBuffers library.
# Where a needed tool is missing, the script says so and ends with status 0.
set -eu

here=$(cd "$(dirname "$0")" && pwd)
root="$here/.."

missing=
command -v flatc >/dev/null 2>&1 || missing="$missing flatbuffers-compiler"
if command -v g++ >/dev/null 2>&1; then
    echo '#include <flatbuffers/flatbuffers.h>' |
        g++ -E -x c++ - >/dev/null 2>&1 || missing="$missing libflatbuffers-dev"
else
    missing="$missing g++"
fi
if [ -n "$missing" ]; then
    echo "run.sh: The comparison was not run. Missing Debian packages:$missing"
    exit 0
fi

build=$(mktemp -d)
trap 'rm -rf "$build"' EXIT
flatc --cpp -o "$build" "$root/crates/raytree/data/layout.fbs"
g++ -std=c++17 -O2 -DNDEBUG -Wall -Wextra -I"$build" "$here/verifier.cpp" -o "$build/verifier"
"$build/verifier" < "$root/crates/tables_cases/stdin"
