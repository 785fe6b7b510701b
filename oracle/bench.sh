#!/usr/bin/env bash
# The benchmark: builds the library where it is not new, then measures it. Tables go to stdout, progress to stderr, the picture to
# docs/performance.svg. Arguments go to the benchmark, as `--only steps`.
set -eu
. "$(dirname "$0")/../scripts/prepare.sh"
need_cargo "the benchmark"
case " $* " in *" --only instructions "*) need valgrind "it is needed to count instructions" ;; esac
need_source
need_library
stop_where_missing

build_library
exec cargo run --release --offline --manifest-path oracle/Cargo.toml -p bench -- --plot docs/performance.svg "$@"
