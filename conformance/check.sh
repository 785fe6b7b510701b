#!/usr/bin/env bash
# Tests the kit, and plays the vectors on the proved library, as the programs `cases` and `solve` and through its C interface, and on the
# independent model, oracle/model. What cannot be built without rt or without cargo is not played; this is said at the end.
set -eu
. "$(dirname "$0")/../scripts/prepare.sh"
need python3 "Python is needed to run conformance/run.py"
if ! command -v rt >/dev/null && ! command -v cargo >/dev/null; then
    need_rt "the programs"
    need_cargo "the model"
fi
stop_where_missing

played=0
failed=0
not_played=
trap 'printf "%s" "$not_played"' EXIT

# Is nothing missing that is needed to play something?
can_play() { # WHAT
    [ -n "$missing" ] || return 0
    while read -r line; do not_played+="NOT PLAYED: $1: $line"$'\n'; done <<<"${missing%$'\n'}"
    missing=
    return 1
}

play() { # WHAT WORDS OF run.py..
    echo "$1:"
    played=$((played + 1))
    python3 conformance/run.py "${@:2}" || failed=$((failed + 1))
}

build_player() { # WORDS OF CARGO..
    cargo build --quiet --release --offline --manifest-path oracle/Cargo.toml -p player "$@"
}

# What does not build counts as failed, and the rest is played.
could_not_build() { # WHAT
    say "$1 could not be built"
    played=$((played + 1))
    failed=$((failed + 1))
}

for test in test_run test_kit; do
    python3 "conformance/$test.py" || failed=$((failed + 1))
done

need_rt "the programs"
if can_play "the library and the program solve"; then
    if build_programs cases solve; then
        play "The library" crates/cases/out/cases
        play "The program solve" --solve crates/solve/out/solve
    else
        could_not_build "the library or the program solve"
    fi
fi

need_library
need_cargo "what plays it"
if can_play "the library's C interface"; then
    if build_library && build_player --features library --bin play-library; then
        play "The library's C interface" oracle/target/release/play-library
    else
        could_not_build "what plays the library's C interface"
    fi
fi

need_cargo "what plays it"
if can_play "the model"; then
    if build_player --bin play-model; then
        play "The model" oracle/target/release/play-model
    else
        could_not_build "what plays the model"
    fi
fi

echo "$played played, $failed failed"
[ "$played" -gt 0 ] && [ "$failed" -eq 0 ]
