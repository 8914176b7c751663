#!/bin/sh
# Tests the clients over libpx.a and libpx.so: those in C, Rust and Python, and the examples of README.md.
#
#     sh clients/test.sh
#
# The libraries are those of the folder PX_LIB_DIR, else of clients/lib, made by build.sh if they are
# not there. CC, CXX and CARGO name the programs to use. The last line is 'N passed, M failed'.
set -u
here=$(cd "$(dirname "$0")" && pwd)
top=$(dirname "$here")
lib=${PX_LIB_DIR:-$here/lib}
cc=${CC:-cc}
cxx=${CXX:-c++}
cargo=${CARGO:-cargo}
strict='-std=c11 -Wall -Wextra -Wpedantic -Werror'
passed=0
failed=0

if [ ! -f "$lib/libpx.a" ] || [ ! -f "$lib/libpx.so" ]; then
    OUT=$lib sh "$here/build.sh" || exit 1
fi
lib=$(cd "$lib" && pwd)

work=$(mktemp -d)
trap 'rm -rf "$work"' EXIT
export PX_LIB_DIR="$lib" PX_LIB="$lib/libpx.so" PYTHONDONTWRITEBYTECODE=1
export CARGO_TARGET_DIR="${CARGO_TARGET_DIR:-$work/target}"

# Runs a function of this script, and shows what it printed where it fails.
step() {
    if "$2" >"$work/log" 2>&1; then
        passed=$((passed + 1))
        echo "ok      $1"
    else
        failed=$((failed + 1))
        echo "FAILED  $1"
        sed 's/^/        /' "$work/log"
    fi
}

# Compiles a C program of this folder, with further words for the compiler, and runs it.
# shellcheck disable=SC2086
run_c() {
    file=$1
    shift
    $cc $strict -g -I "$here/c" "$@" "$here/c/$file.c" "$lib/libpx.a" -lpthread -o "$work/$file" && "$work/$file"
}

c_tests() { run_c test -O2; }
c_sanitized() { run_c test -O1 -fsanitize=address,undefined -fno-sanitize-recover=all; }
c_refusals() { run_c refusals -O2 -Wl,--wrap=malloc,--wrap=realloc,--wrap=free; }
c_speed() { $cc -O2 -I "$here/c" "$here/c/speed.c" "$lib/libpx.a" -lpthread -o "$work/speed" && "$work/speed" 100; }

c_shared() {
    $cc -O2 -I "$here/c" "$here/c/test.c" -L "$lib" -lpx -lpthread -o "$work/shared" &&
        LD_LIBRARY_PATH=$lib "$work/shared"
}

c_valgrind() {
    $cc -O1 -g -I "$here/c" "$here/c/example.c" "$lib/libpx.a" -lpthread -o "$work/example" &&
        valgrind -q --leak-check=full --show-leak-kinds=all --error-exitcode=99 "$work/example" \
            <"$top/crates/px_main/stdin" >"$work/reply" && cmp "$work/reply" "$top/crates/px_main/stdout"
}

c_example() {
    $cc $strict -O2 -I "$here/c" "$here/c/example.c" "$lib/libpx.a" -lpthread -o "$work/example" &&
        "$work/example" <"$top/crates/px_main/stdin" >"$work/reply" && cmp "$work/reply" "$top/crates/px_main/stdout" ||
        return 1
    echo '{' | "$work/example" filter >"$work/reply"
    [ $? -eq 2 ] && [ ! -s "$work/reply" ]
}

c_header() {
    echo '#include "px.h"' >"$work/header.c"
    $cc -std=c99 -Wall -Wextra -Wpedantic -Werror -fsyntax-only -I "$here/c" "$work/header.c" &&
        $cxx -Wall -Wextra -Wpedantic -Werror -fsyntax-only -x c++ -I "$here/c" "$work/header.c"
}

rust_tests() { (cd "$here/rust" && $cargo test --offline --release --quiet); }
rust_speed() { (cd "$here/rust" && $cargo run --offline --release --quiet --example speed 100 1000); }

rust_pushdown() {
    (cd "$here/rust" && $cargo run --offline --release --quiet --example pushdown) >"$work/plan" &&
        diff "$work/plan" "$here/rust/examples/pushdown.txt"
}

python_tests() { (cd "$here/python" && python3 -m unittest test_px); }
python_speed() { (cd "$here/python" && python3 speed.py 100 1000); }

# The code of README.md in one language.
shown() {
    awk -v start="\`\`\`$1" '$0 == start { on = 1; next } /^```/ { on = 0 } on' "$top/README.md" >"$2" && [ -s "$2" ]
}

readme_c() {
    shown c "$work/readme.c" &&
        $cc -I "$here/c" "$work/readme.c" "$lib/libpx.a" -o "$work/readme" && "$work/readme"
}

readme_rust() {
    mkdir -p "$work/readme_rust/src" &&
        shown rust "$work/readme_rust/src/main.rs" &&
        printf '[package]\nname = "readme"\nversion = "0.1.0"\nedition = "2024"\n\n[dependencies]\npx = { path = "%s" }\n' \
            "$here/rust" >"$work/readme_rust/Cargo.toml" &&
        (cd "$work/readme_rust" && $cargo run --offline --quiet)
}

readme_python() { shown python "$work/readme.py" && PYTHONPATH=$here/python python3 "$work/readme.py"; }

step 'C: the tests' c_tests
step 'C: the tests, with libpx.so' c_shared
step 'C: the tests, under AddressSanitizer and UBSan' c_sanitized
step 'C: each allocation refused in turn' c_refusals
step 'C: the example' c_example
if command -v valgrind >/dev/null; then step 'C: the example, under valgrind' c_valgrind; else echo 'skipped C: the example, under valgrind'; fi
step 'C: the header, as C99 and as C++' c_header
step 'C: the times' c_speed
step 'Rust: the tests' rust_tests
step 'Rust: a filter pushed into a scan' rust_pushdown
step 'Rust: the times' rust_speed
step 'Python: the tests' python_tests
step 'Python: the times' python_speed
step 'README.md: the example in C' readme_c
step 'README.md: the example in Rust' readme_rust
step 'README.md: the example in Python' readme_python
echo "$passed passed, $failed failed"
[ "$failed" -eq 0 ]
