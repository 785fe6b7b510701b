#!/usr/bin/env bash
# Builds the library where it is not new, builds the example and runs it.
set -eu
. "$(dirname "$0")/../../scripts/prepare.sh"
need_cargo "the example"
need_library
stop_where_missing

build_library
exec cargo run --quiet --release --offline --manifest-path examples/rust/Cargo.toml --target-dir target/examples/rust
