# Sourced from the repository's folder, after tools/x86.sh: `build_independent` builds "$independent" where it is
# missing or older than a source; `build_answer` builds the program that answers scripts through the library.
out=target/tests
independent=$out/independent

build_independent() {
    if [ -e "$independent" ] && [ -z "$(find tests/independent/src -newer "$independent" -print -quit)" ]; then
        return
    fi
    need rustc  # written for Rust 1.63, which Debian 12 has
    mkdir -p "$out"
    rustc -O --edition 2021 -o "$independent" tests/independent/src/main.rs
}

build_answer() {  # build_answer FILE LIBRARY: an archive, or an object that has all of the library
    "$cc" -std=c11 -O2 -Wall -Wextra -Werror -I include -o "$1" tests/scripts/answer/*.c "$2"
}
