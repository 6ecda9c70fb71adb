# Sourced: `build_archive` proves the library and builds "$archive", for C to link on any x86-64; `build_listing_archive`
# proves the listing program except its main, "$listing_archive". Each does something only if its file is missing or
# older than a source.
root=$(cd "$(dirname "${BASH_SOURCE[0]}")/.." && pwd)
archive=$root/target/staticlib/libfeldrime.a
listing_archive=$root/target/staticlib/liblisting_program.a

needed() {  # needed CRATE: how many crates of crates.txt are proved for it, itself too
    awk -v crate="$1" -F '[: ]+' '
        { for (i = 2; i <= NF; i++) needs[$1] = needs[$1] " " $i; known[$1] = 1 }
        function visit(name, parts, n) {
            if (!known[name] || seen[name]++)
                return
            count++
            for (n = split(needs[name], parts, " "); n > 0; n--)
                visit(parts[n])
        }
        END { visit(crate); print count }' "$root/crates.txt"
}

progress() {  # progress CRATE: a line for each crate that rt, on standard input, says is proved
    local line name= proved=0 all
    all=$(needed "$1")
    while IFS= read -r line; do
        if [[ $line =~ ^rt:\ chose\ .*\ for\ ([a-z_]+)$ ]]; then
            name=${BASH_REMATCH[1]}
        elif [[ $line != logic=proved* ]]; then
            continue
        elif [ "$name" = "$1" ]; then
            echo "proved $all of $all: $1, as an archive"
        else
            proved=$((proved + 1))
            echo "proved $proved of $all: $name"
        fi
    done
}

prove() {  # prove FILE CRATE WHAT: the file is the crate's archive
    local log=$root/target/build.log
    # rt's own out/ apart
    if [ -e "$1" ] &&
        [ -z "$(find "$root/crates.txt" "$root"/crates/*/* -name out -prune -o -newer "$1" -print -quit)" ]; then
        return
    fi
    if ! command -v rt > /dev/null; then
        echo "$3 must be built first, and Rattle's command rt is missing" >&2
        return 1
    fi
    echo "proving $3 and building it, which takes minutes; the log is $log"
    mkdir -p "$(dirname "$1")"
    if ! (set -o pipefail; cd "$root/crates/$2" && rt lib --cpu x86-64 2>&1 | tee "$log" | progress "$2"); then
        tail -n 20 "$log" >&2
        return 1
    fi
    # under another name first: what links it meanwhile never gets half a file
    cp "$root/crates/$2/out/lib$2.a" "$1.new"
    mv "$1.new" "$1"
}

build_archive() {
    prove "$archive" feldrime_c "the library"
}

build_listing_archive() {
    prove "$listing_archive" listing_program_c "the listing program"
}
