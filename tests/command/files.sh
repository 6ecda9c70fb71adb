# Sourced by tests/feldrime: files that are written take their place whole or not at all, and nothing else is left.
draw() {  # draw STATUS TEXT OUT [COMMAND..]: draws to OUT, by way of the command
    ends "$1" "$2" "${@:4}" "${feldrime[@]}" draw "$page" "$font" "$3"
}

# what stands in the way
anew
# a device of its own for root, who could replace the machine's; for another user the machine's is safe
device=/dev/null
if [ "$(id -u)" -eq 0 ] && mknod "$work/null" c 1 3 2> /dev/null; then
    device=$work/null
fi
if [ "$device" = "$work/null" ] || [ ! -w /dev ]; then
    draw 1 "null: is not a regular file" "$device"
    [ -c "$device" ] || say "a device was replaced"
fi
mkfifo "$work/out/fifo"
draw 1 "is not a regular file" "$work/out/fifo"
[ -p "$work/out/fifo" ] || say "a pipe was replaced"
mkdir "$work/out/folder"
draw 1 "is a folder" "$work/out/folder"
draw 1 "is a folder" "$work/out/folder/"
draw 1 "its folder does not exist" "$work/out/missing/a.png"
echo old > "$work/out/file"
draw 1 "part of its path is not a folder" "$work/out/file/a.png"
draw 1 "is not a file name" ""
ln -s nowhere "$work/out/link"
draw 1 "is a symbolic link to a missing file" "$work/out/link"
for source in "$page" "$font"; do
    cp "$source" "$work/out/source"
    ln -s source "$work/out/other"
    inputs=("${page/#$source/$work/out/source}" "${font/#$source/$work/out/source}")
    for name in source other; do
        ends 1 "$name: the picture cannot replace a file it is drawn from" "${feldrime[@]}" draw "${inputs[@]}" "$work/out/$name"
    done
    cmp -s "$source" "$work/out/source" || say "a picture took the place of what it is drawn from"
    rm "$work/out/source" "$work/out/other"
done
only fifo file folder link
[ -z "$(ls -A "$work/out/folder")" ] || say "something was left in a folder"

# links, modes and names
anew
mkdir "$work/out/far"
echo old > "$work/out/far/a.png"
chmod 640 "$work/out/far/a.png"
ln -s far/a.png "$work/out/link"
draw 0 "link: 384 x 266" "$work/out/link"
[ -L "$work/out/link" ] && pngtopnm "$work/out/far/a.png" > /dev/null 2>&1 || say "a link was not followed"
[ "$(stat -c %a "$work/out/far/a.png")" = 640 ] || say "a replaced file has another mode"
(umask 027; draw 0 "" "$work/out/new.png")
[ "$(stat -c %a "$work/out/new.png")" = 640 ] || say "a new file does not heed the umask"
only far link new.png
anew
cp "$page" "$work/out/-page"
cp "$font" "$work/out/--help"
ends 0 "-out: 384 x 266" env -C "$work/out" "${feldrime[@]}" draw -- -page --help -out
ends 0 "BULLETIN D'AVALANCHES" env -C "$work/out" "${feldrime[@]}" rows ./-page
ends 0 "--help: a font" env -C "$work/out" "${feldrime[@]}" check ./-page -- --help
ends 0 "-site/-page.html" env -C "$work/out" "${feldrime[@]}" site ./--help -- -site -page
only --help -out -page -site

# no right, no room
anew
chmod 755 "$work" "$work/out"
# where the other user can reach them
cp "$program" "$page" "$font" "$work"
as_other() {  # as_other TEXT OUT: draws as a user who may not write there
    ends 1 "$1" "${other[@]}" "${runner[@]}" "$work/feldrime" draw "$work/fr.page" "$work/deck.font" "$2"
}
chmod 555 "$work/out"
as_other "no permission to write there" "$work/out/a.png"
chmod 777 "$work/out"
echo old > "$work/out/a.png"
chmod 444 "$work/out/a.png"
as_other "no permission to write there" "$work/out/a.png"
[ "$(< "$work/out/a.png")" = old ] || say "a file that may not be written was replaced"
only a.png
chmod 644 "$work/out/a.png"
draw 1 "File too large" "$work/out/a.png" bash -c 'ulimit -f 1; exec "$@"' -
[ "$(< "$work/out/a.png")" = old ] || say "a file was replaced by half of one"
only a.png
if unshare -rm true 2> /dev/null; then
    # the font and the page are read from elsewhere: only OUT is on the full disk
    full=(unshare -rm bash -c 'mount -t tmpfs -o size=4k none "$0/out" && echo old > "$0/out/a.png" && { "$@"; status=$?; cat "$0/out/a.png"; ls -A "$0/out"; exit $status; }' "$work")
    draw 1 "a.png: the disk is full" "$work/out/a.png" "${full[@]}"
    [[ $said == *"full"$'\n'"old"$'\n'"a.png" ]] || say "on a full disk stands: $said"
else
    echo "feldrime: a full disk cannot be made here, and was not tried"
fi

# the picture's maker is missing, or fails
anew
mkdir -p "$work/bin"
draw 1 "pnmtopng: cannot be run; to install it: apt-get install --no-install-recommends netpbm" "$work/out/a.png" env PATH="$work/bin"
printf '#!/bin/sh\nexit 3\n' > "$work/bin/pnmtopng"
chmod +x "$work/bin/pnmtopng"
draw 1 "pnmtopng: failed to make the picture" "$work/out/a.png" env PATH="$work/bin:$PATH"
printf '#!/bin/sh\nexit 0\n' > "$work/bin/pnmtopng"
draw 1 "" "$work/out/a.png" env PATH="$work/bin:$PATH"
only

# stopped while the picture is made, and while it is written
echo old > "$work/out/a.png"
printf '#!/bin/sh\nexec sleep 2\n' > "$work/bin/pnmtopng"
draw 124 "" "$work/out/a.png" timeout 0.3 env PATH="$work/bin:$PATH"
[ "$(< "$work/out/a.png")" = old ] || say "a program that was stopped replaced the file"
only a.png
rm "$work/bin/pnmtopng"
"$cc" -std=gnu11 -Iinclude -o "$work/stopped" programs/*.c tests/command/stopped.c "$archive"
ends 143 "" "${runner[@]}" "$work/stopped" draw "$page" "$font" "$work/out/a.png"
pngtopnm "$work/out/a.png" > /dev/null 2>&1 || say "stopped while it wrote, it left half a file"
only a.png

# the scripts, from elsewhere and through links
anew
ln -s "$here/feldrime" "$work/out/feldrime"
ln -s "$here/draw" "$work/out/draw"
cp "$page" "$font" "$work/out"
ends 0 "a.png: 384 x 266" env -C "$work/out" ./draw fr.page deck.font a.png
ends 0 "fr.page: a page" env -C "$work/out" ./feldrime check fr.page
ends 2 "0 to 255" env -C "$work/out" ./draw fr.page deck.font b.png 256
only a.png deck.font draw feldrime fr.page
