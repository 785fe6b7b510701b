#!/usr/bin/env bash
# Builds the library where it is not new, then compares it with the source's `resume`, all parts, with progress. Arguments go to the
# comparison's command `all`, as --count and --seed. The tables go to standard output.
set -eu
. "$(dirname "$0")/../scripts/prepare.sh"
need_cargo "the comparison"
need_source
need_library
stop_where_missing

build_library
exec cargo run --release --offline --manifest-path oracle/Cargo.toml -p compare -- all "$@"
