# What the scripts of examples/, oracle/ and conformance/ do before their work: they source this file, look for all that they need, stop
# where something is missing, and build the library. They go on in the repository's root.

# With it `cd` may print where it goes.
unset CDPATH
# The scripts use the library that they build.
unset OLA_LIBRARY

root=$(cd "$(dirname "${BASH_SOURCE[0]}")/.." && pwd -P)
script=$(cd "$(dirname "$0")" && pwd -P)/$(basename "$0")
script=${script#"$root"/}
cd "$root"

archive=crates/ola/out/libola.a

# A line for each thing that is missing.
missing=

say() { echo "$script: $*" >&2; }

need() { # TOOL WHY
    command -v "$1" >/dev/null || missing+="$1 is not there: $2"$'\n'
}

need_rt() { # WHAT
    need rt "the Rattle toolchain, whose command it is, is needed to prove and build $1"
}

# rustc links with the C compiler.
need_cargo() { # WHAT
    need cargo "Rust is needed to build $1"
    need cc "a C compiler is needed to link $1"
}

# A library that is new is used as it is, without rt.
need_library() {
    library_is_new || need_rt "the library"
}

# A relative folder counts from the repository's root, as in oracle/source/folder.
need_source() {
    local folder=${OLA_SOURCE:-../shared/docs/src} file
    for file in executor/src/contract_executor.rs core/src/vm/{hardware,opcodes,operands}.rs core/src/program/binary_program.rs; do
        [ -f "$folder/$file" ] || missing+="$folder/$file is not there: a file of the source, whose folder OLA_SOURCE names"$'\n'
    done
}

stop_where_missing() {
    [ -n "$missing" ] || return 0
    while read -r line; do say "$line"; done <<<"${missing%$'\n'}"
    say "nothing was done: README.md and oracle/README.md say what is needed"
    exit 1
}

# Is nothing that the archive is made from newer than it? A folder is newer where a file of it was removed.
library_is_new() {
    [ -f "$archive" ] && [ -z "$(find crates.txt crates/*/{src,specs,proofs} -newer "$archive" -print -quit)" ]
}

# rt puts an archive in its place only when all is proved, and in one step.
build_library() {
    ! library_is_new || return 0
    say "proving and building the library: about six minutes the first time, one where nearly all is proved"
    local began
    began=$(date +%s)
    # its time is that of its beginning, so that what was edited meanwhile is newer
    (cd crates/ola && rt lib) >&2 && touch -d "@$began" "$archive"
}

# rt knows by content what is proved.
build_programs() { # NAME..
    say "proving and building $*: about four minutes the first time, seconds where nothing changed"
    local name
    for name; do
        # rt runs what it built; nothing is read and what is written is not wanted
        (cd "crates/$name" && rt run </dev/null 2>&1 >/dev/null) >&2 || return
    done
}
