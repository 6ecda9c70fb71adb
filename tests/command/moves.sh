# Sourced by tests/feldrime: catalogue and sheet, which make a typed sheet a page with a row table, and back.
python3 tests/command/moves.py "${feldrime[@]}" || failed=1

alike() {  # alike PAGE MOVED: both have the same picture in some fields, and the same cells and text, which `rows` tells behind a row's origin
    local field
    for field in 0 16 48 112 255; do
        cmp -s <("${runner[@]}" "$example" "$1" "$grouped" "$field") <("${runner[@]}" "$example" "$2" "$grouped" "$field") || say "$1 was moved and looks otherwise in field $field"
    done
    cmp -s <("${feldrime[@]}" rows "$1" | cut -c 25-) <("${feldrime[@]}" rows "$2" | cut -c 25-) || say "$1 was moved and has other rows"
}

anew
sheets=0
for sample in samples/*.page; do
    # byte 7 is IR2
    [ $(($(od -An -tu1 -j7 -N1 "$sample") & 128)) -eq 0 ] || continue
    sheets=$((sheets + 1))
    # a copy, so that a wrong program spoils no sample
    cp "$sample" "$work/typed.page"
    ends 0 "there.page: a page of the catalogue" "${feldrime[@]}" catalogue "$work/typed.page" "$work/out/there.page"
    ends 0 "back.page: a typed sheet" "${feldrime[@]}" sheet "$work/out/there.page" "$work/out/back.page"
    alike "$sample" "$work/out/there.page"
    alike "$sample" "$work/out/back.page"
done
[ "$sheets" -ge 5 ] || say "only $sheets samples are sheets"

# for each word a page that it moves
cp samples/sheet.page "$work/typed.page"
ends 0 "table.page: " "${feldrime[@]}" catalogue "$work/typed.page" "$work/table.page"
declare -A movable=([catalogue]=$work/typed.page [sheet]=$work/table.page)
cp "$program" "$work"
chmod 755 "$work"

refuses() {  # refuses WORD NUMBER PLACE BYTE: its page with this byte changed is refused by this number, and what stands in OUT's place stays
    anew
    echo old > "$work/out/a.page"
    cp "${movable[$1]}" "$work/spoiled.page"
    printf "\\x$4" | dd of="$work/spoiled.page" bs=1 seek="$3" conv=notrunc status=none
    ends 1 "spoiled.page: refused $2, " "${feldrime[@]}" "$1" "$work/spoiled.page" "$work/out/a.page"
    [ "$(< "$work/out/a.page")" = old ] || say "$1 replaced a file though it refused $2"
    only a.page
}

for word in catalogue sheet; do
    from=${movable[$word]}
    while read -r number place byte; do
        refuses "$word" "$number" "$place" "$byte"
    done <<< '1 0 04
2 0 03
2 4 19
12 20 40
12 26 11
4 6 a2
13 7 98
14 10 57
15 10 55
6 27 05'

    anew
    misused "missing operand" "$word" "${feldrime[@]}" "$word" "$from"
    misused "extra operand '$work/out/b.page'" "$word" "${feldrime[@]}" "$word" "$from" "$work/out/a.page" "$work/out/b.page"
    ends 1 "missing.page: cannot be read: No such file" "${feldrime[@]}" "$word" "$work/missing.page" "$work/out/a.page"
    ends 1 "refused 1, " "${feldrime[@]}" "$word" /dev/null "$work/out/a.page"
    ends 1 "refused 2, the length" "${feldrime[@]}" "$word" "$font" "$work/out/a.page"
    [[ $said == *"(it is as long as a font)" ]] || say "$word does not recognize a font: $said"
    only

    # OUT is PAGE, by three names
    cp "$from" "$work/out/source"
    ln -s source "$work/out/link"
    ln "$work/out/source" "$work/out/twin"
    for name in source link twin; do
        ends 1 "$name: the new page cannot replace the page it is made from" "${feldrime[@]}" "$word" "$work/out/source" "$work/out/$name"
    done
    cmp -s "$from" "$work/out/source" || say "$word replaced the page itself"
    only link source twin

    # what stands in the way
    anew
    mkfifo "$work/out/fifo"
    mkdir "$work/out/folder"
    ends 1 "is not a regular file" timeout 5 "${feldrime[@]}" "$word" "$from" "$work/out/fifo"
    ends 1 "is a folder" "${feldrime[@]}" "$word" "$from" "$work/out/folder"
    [[ $said != *": a "* ]] || say "$word reports a page that it did not make: $said"
    ends 1 "its folder does not exist" "${feldrime[@]}" "$word" "$from" "$work/out/missing/a.page"
    ends 1 "is not a file name" "${feldrime[@]}" "$word" "$from" ""
    only fifo folder

    # no room, no right, and nowhere to tell what was done
    anew
    echo old > "$work/out/a.page"
    ends 1 "File too large" bash -c 'ulimit -f 1; exec "$@"' - "${feldrime[@]}" "$word" "$from" "$work/out/a.page"
    [ "$(< "$work/out/a.page")" = old ] || say "$word replaced a file by half of one"
    chmod 444 "$work/out/a.page"
    ends 1 "no permission to write there" "${other[@]}" "${runner[@]}" "$work/feldrime" "$word" "$from" "$work/out/a.page"
    [ "$(< "$work/out/a.page")" = old ] || say "$word replaced a file that may not be written"
    status=0
    "${feldrime[@]}" "$word" "$from" "$work/out/b.page" > /dev/full 2> "$work/said" || status=$?
    [ "$status" -eq 1 ] && grep -q "standard output: No space left" "$work/said" || say "$word to a full disk ended with $status: $(< "$work/said")"
    only a.page b.page

    # a file that is replaced keeps its mode, and a name may begin with '-'
    anew
    cp "$from" "$work/out/-page"
    echo old > "$work/out/--help"
    chmod 640 "$work/out/--help"
    ends 0 "--help: a " env -C "$work/out" "${feldrime[@]}" "$word" -- -page --help
    [ "$(stat -c %a "$work/out/--help")" = 640 ] || say "$word made a file of another mode"
    only --help -page

    # from standard input to standard output
    anew
    ends 0 "$work/out/a.page: a " "${feldrime[@]}" "$word" "$from" "$work/out/a.page"
    env -C "$work/out" "${feldrime[@]}" "$word" - - < "$from" > "$work/piped.page" || say "$word from and to standard files ended with $?"
    cmp -s "$work/out/a.page" "$work/piped.page" || say "$word makes another page on standard output"
    only a.page
done
# IR0[7]
refuses catalogue 4 5 e8
refuses sheet 19 5 e8
