#!/usr/bin/env bash
# Builds the library where it is not new, builds the example and runs it.
set -eu
. "$(dirname "$0")/../../scripts/prepare.sh"
need cc "a C compiler is needed to build the example"
need_library
stop_where_missing

build_library
mkdir -p target/examples
cc -std=c99 -Wall -Wextra -Wpedantic -Werror -O2 -Iinclude -o target/examples/c examples/c/example.c "$archive"
exec target/examples/c
