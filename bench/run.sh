#!/bin/sh
# Builds the static library of the crate tables_c and bench.cpp, and runs the
# benchmark.
#
# Usage:  run.sh [FILE]
# When FILE is given, the measured buffer is also written to that file.
#
# The static library is written to crates/tables_c/out. The rest is built in a
# temporary folder. When a needed tool is missing, the script says so and ends
# with status 0. It was written for flatc and the FlatBuffers headers of
# version 2.0.8.
set -eu

here=$(cd "$(dirname "$0")" && pwd)
root=$(cd "$here/.." && pwd)
schema="$root/crates/raytree/data/layout.fbs"

missing=
command -v rt >/dev/null 2>&1 || missing="$missing rt"
command -v flatc >/dev/null 2>&1 || missing="$missing flatc"
if command -v g++ >/dev/null 2>&1; then
    echo '#include <flatbuffers/flatbuffers.h>' |
        g++ -E -x c++ - >/dev/null 2>&1 || missing="$missing FlatBuffers-headers"
else
    missing="$missing g++"
fi
if [ -n "$missing" ]; then
    echo "run.sh: The benchmark was not run. It needs:$missing"
    echo "run.sh: rt comes with Rattle. The Debian packages of the others are" \
        "flatbuffers-compiler, g++ and libflatbuffers-dev."
    exit 0
fi

build=$(mktemp -d)
trap 'rm -rf "$build"' EXIT

# What rt prints is shown only when it fails.
if ! (cd "$root/crates/tables_c" && rt lib) >"$build/rt.log" 2>&1; then
    cat "$build/rt.log" >&2
    echo "run.sh: The static library of tables_c cannot be built." >&2
    exit 1
fi
library="$root/crates/tables_c/out/libtables_c.a"

flatc --cpp -o "$build" "$schema"

# The asserts of the FlatBuffers headers are switched off with NDEBUG, as in a
# release build. No option for the local processor is used.
options="-std=c++17 -O3 -DNDEBUG -Wall -Wextra"
g++ $options -I"$build" "$here/bench.cpp" "$library" -o "$build/bench"

echo "rattle: $(rt version)"
echo "flatc: $(flatc --version)"
echo "compiler: $(g++ --version | head -n 1)"
echo "options: $options"
"$build/bench" "$@"
