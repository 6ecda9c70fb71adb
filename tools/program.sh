# Sourced: `build_program` builds "$program", the program feldrime, and all that it takes; `build_listing` builds
# "$listing", the listing program; `build_example` builds "$example", which is examples/draw.c. Each does something only
# if its file is missing or older than a source.
. "$(dirname "${BASH_SOURCE[0]}")/build.sh"
. "$root/tools/x86.sh"
program=$root/target/feldrime/feldrime
listing=$root/target/listing/feldrime-listing
example=$root/target/draw/draw

compile() {  # compile FILE SOURCE..: if a source, an archive too, or a header is newer than the file
    local source
    for source in "$root"/include/*.h "$root"/programs/*.h "${@:2}"; do
        if [ ! "$1" -nt "$source" ]; then
            echo "building ${1#"$root"/}"
            mkdir -p "$(dirname "$1")"
            # under another name first: a program that runs meanwhile is never replaced by half a file
            "$cc" -std=c11 -O2 -Wall -Wextra -I"$root/include" -o "$1.new" "${@:2}"
            mv "$1.new" "$1"
            return
        fi
    done
}

build_program() {
    need "${compiler[@]}"
    build_archive
    compile "$program" "$root"/programs/*.c "$archive"
}

build_listing() {
    need "${compiler[@]}"
    build_listing_archive
    compile "$listing" "$root/programs/listing/main.c" "$listing_archive"
}

build_example() {
    need "${compiler[@]}"
    build_archive
    compile "$example" "$root/examples/draw.c" "$archive"
}
