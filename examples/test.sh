#!/usr/bin/env bash
# Holds the numbers of the header and the bindings to the definitions; builds and runs both examples, and holds what they print to
# expected.txt; then every call of the header, as C and as C++; then the program `solve`.
set -euo pipefail
. "$(dirname "$0")/../scripts/prepare.sh"
need cc "a C compiler is needed to build the example in C and every call of the header"
need c++ "a C++ compiler is needed to build every call of the header as C++"
need_cargo "the example in Rust"
need python3 "Python is needed for the tests of the numbers and of solve"
need_rt "the library and the program solve"
stop_where_missing

python3 examples/test_numbers.py

build_library
for language in c rust; do
    bash "examples/$language/run.sh" | diff examples/expected.txt -
    echo "examples/$language prints what is expected"
done

for compiler in "cc -std=c99" "c++ -std=c++11 -x c++"; do
    $compiler -Wall -Wextra -Wpedantic -Werror -O2 -Iinclude -o target/examples/every_call \
        examples/c/every_call.c -x none "$archive"
    target/examples/every_call
    echo "every call of include/ola.h, by ${compiler%% *}: with its buffers in one struct it does the same"
done

build_programs solve
python3 examples/test_solve.py
