# Sourced by tests/feldrime: the words, their help and their wrong uses; draw, rows and check.
words=(draw rows site check catalogue sheet)

misused() {  # misused TEXT WORD COMMAND..: it ends with 2 and says one line with this text, then where help is
    ends 2 "$1" "${@:3}"
    [[ $said == "feldrime: "*$'\n'"Try 'feldrime ${2:+$2 }--help'." && $(wc -l <<< "$said") -eq 2 ]] || say "not one line and a hint: ${*:3}: $said"
}

# help and version, by the program and, from the sources alone, by the script
version=$(sed -n 's/^#define FELDRIME_VERSION //p' include/feldrime.h)
mkdir -p "$work/few" "$work/bare"
for name in bash dirname env readlink sed; do
    ln -s "$(command -v "$name")" "$work/few"
done
cp -r feldrime include programs "$work/bare"
bare=(env PATH="$work/few" "$work/bare/feldrime")  # neither a compiler nor rt is there, nor anything that was built
for arguments in --help "${words[@]/%/ --help}"; do
    ends 0 "Exit status is 0 on success, 1 if a file is refused" "${feldrime[@]}" $arguments
    shown=$said
    [[ $shown == "Usage: feldrime ${arguments/--help/}"* ]] || say "$arguments says: $shown"
    for script in ./feldrime "${bare[*]}"; do
        ends 0 "$shown" $script $arguments
        [ "$said" = "$shown" ] || say "$script $arguments prints another help than the program"
        ends 0 "$shown" $script ${arguments/--help/-h}
    done
    ends 0 "$shown" "${feldrime[@]}" ${arguments/--help/-h}
    for command in "${feldrime[*]}" ./feldrime "${bare[*]}"; do
        ends 0 "feldrime $version" $command ${arguments/--help/--version}
        [ "$said" = "feldrime $version" ] || say "$command ${arguments/--help/--version} says: $said"
    done
done
[ ! -e "$work/bare/target" ] || say "help built something"
for word in "${words[@]}"; do
    ends 0 $'\n'"  $word " "${feldrime[@]}" --help
    ends 0 "Usage: feldrime $word" "${feldrime[@]}" "$word" "$page" --help
    ends 0 "Usage: feldrime $word" "${feldrime[@]}" -- "$word" -h none none none none none
    misused "missing operand" "$word" "${feldrime[@]}" "$word"
    misused "unrecognized option '--none'" "$word" "${feldrime[@]}" "$word" --none "$page"
    misused "invalid option -- 'x'" "$word" "${feldrime[@]}" "$word" "$page" -x
    misused "option '--help' doesn't allow an argument" "$word" "${feldrime[@]}" "$word" --help=1
    status=0
    "${feldrime[@]}" "$word" --help > /dev/full 2> "$work/said" || status=$?
    [ "$status" -eq 1 ] && grep -q "standard output: No space left" "$work/said" || say "$word --help to a full disk ended with $status: $(< "$work/said")"
done
misused "missing word" "" "${feldrime[@]}"
misused "missing word" "" "${feldrime[@]}" --
misused "unknown word 'paint'" "" "${feldrime[@]}" paint "$page"
misused "unknown word '--help'" "" "${feldrime[@]}" -- --help
misused "unrecognized option '--none'" "" "${feldrime[@]}" --none draw
misused "missing operand" draw "${feldrime[@]}" draw "$page" "$font"
misused "extra operand 'more'" draw "${feldrime[@]}" draw "$page" "$font" "$work/a.png" 0 more
misused "extra operand 'more'" rows "${feldrime[@]}" rows "$page" "$page" more
misused "missing operand" site "${feldrime[@]}" site "$font" "$work/site"
misused "extra operand 'more'" check "${feldrime[@]}" check "$page" "$font" more
misused "invalid option -- '1'" draw "${feldrime[@]}" draw "$page" "$font" "$work/a.png" -1
for field in 256 "" " 1" 1x x 0x1 1.0 +1 18446744073709551616 99999999999999999999; do
    misused "'$field' is not a field: a field is a number from 0 to 255" draw "${feldrime[@]}" draw "$page" "$font" "$work/a.png" "$field"
done
misused "'-1' is not a field" draw "${feldrime[@]}" draw -- "$page" "$font" "$work/a.png" -1
[ ! -e "$work/a.png" ] && [ ! -e "$work/site" ] || say "a wrong use made something"

levels() {  # levels FILE: a PNG file as the C example writes it
    pngtopnm "$1" 2> /dev/null | pnmdepth 255 2> /dev/null
}

for sample in samples/*.page; do
    for field in 0 16 047 48 255; do
        ends 0 "$work/a.png: " "${feldrime[@]}" draw "$sample" "$grouped" "$work/a.png" "$field"
        cmp -s <(levels "$work/a.png") <("${runner[@]}" "$example" "$sample" "$grouped" "$field") || say "$sample in field $field is not what the example draws"
    done
    ends 0 "$work/b.png: " "${feldrime[@]}" draw "$sample" "$font" "$work/b.png"
    cmp -s <(levels "$work/b.png") <("${runner[@]}" "$example" "$sample" "$font" 0) || say "$sample is not drawn in field 0"
done
! cmp -s <("${runner[@]}" "$example" "$page" "$font" 0) <("${runner[@]}" "$example" "$page" "$font" 16) || say "fields 0 and 16 look alike, and nothing was tried"

! cmp -s <("${runner[@]}" "$example" "$drawing" "$font" 0) <("${runner[@]}" "$example" "$drawing" "$grouped" 0) || say "a font with groups draws no graphics"
cmp -s <("${runner[@]}" "$example" "$page" "$font" 0) <("${runner[@]}" "$example" "$page" "$grouped" 0) || say "a font with groups draws other letters"

python3 tests/command/rows.py "${feldrime[@]}" || failed=1

ends 0 "fr.page: a page of 19 rows and 48 columns, 384 x 266 dots" "${feldrime[@]}" check "$page"
[[ $said != *"field mode"* ]] || say "a page in character mode is reported as one in field mode"
ends 0 "warning.page: a page of 23 rows and 64 columns, 576 x 322 dots, field mode" "${feldrime[@]}" check "$latching"
# its switch 4 off
{ head -c 26 "$latching"; printf '\1'; tail -c +28 "$latching"; } > "$work/character.page"
ends 0 "character.page: a page of 23 rows and 64 columns, 576 x 322 dots" "${feldrime[@]}" check "$work/character.page"
[[ $said != *"field mode"* ]] || say "a page of version 2 in character mode is reported as one in field mode"
[[ $said != *"chip B"* ]] || say "a page of version 2 is reported as one of chip B"
ends 0 "profile.page: a page of 20 rows and 48 columns, 480 x 240 dots, chip B" "${feldrime[@]}" check "$drawing"
# its chip, in byte 29, as A, and as one that no page has; its switch 4 on, in byte 26
{ head -c 29 "$drawing"; printf '\0'; tail -c +31 "$drawing"; } > "$work/struck.page"
ends 0 "struck.page: a page of 20 rows and 48 columns, 480 x 240 dots" "${feldrime[@]}" check "$work/struck.page"
[[ $said != *"chip B"* ]] || say "a page of version 3 of chip A is reported as one of chip B"
{ head -c 29 "$drawing"; printf '\2'; tail -c +31 "$drawing"; } > "$work/chip.page"
{ head -c 26 "$drawing"; printf '\x11'; tail -c +28 "$drawing"; } > "$work/running.page"
ends 0 "running.page: a page of 20 rows and 48 columns, 480 x 240 dots, field mode, chip B" "${feldrime[@]}" check "$work/running.page"
for word in check rows; do
    ends 1 "chip.page: refused 12, " "${feldrime[@]}" "$word" "$work/chip.page"
    [[ $said == *"in version 3 the chip is above 1, or a group of the font is above 4" ]] || say "12 is cut: $said"
done
ends 0 "headline.page: a page of 12 rows and 48 columns, 432 x 168 dots" "${feldrime[@]}" check samples/headline.page
# every row of double width: the high bytes of its entries, in every other cell from 8193 on, become 40 hex
cp samples/headline.page "$work/wide.page"
for row in {0..11}; do
    printf '\x40' | dd of="$work/wide.page" bs=1 seek=$((29 + 8193 + 2 * row)) conv=notrunc status=none
done
ends 0 "wide.page: a page of 12 rows and 48 columns, 432 x 168 dots" "${feldrime[@]}" check "$work/wide.page"
# byte 5 is IR0, byte 6 IR1 and byte 7 IR2
while read -r place bytes; do
    cp "$page" "$work/reserved.page"
    printf "$bytes" | dd of="$work/reserved.page" bs=1 seek="$place" conv=notrunc status=none
    for word in check rows; do
        ends 1 "refused 4, interlace (IR1[7]) is set, or row codes (IR0[7]) without the row table (IR2[7])" "${feldrime[@]}" "$word" "$work/reserved.page"
    done
done <<< '5 \xe8\x11\x1a
6 \x91'
ends 0 "deck.font: a font" "${feldrime[@]}" check "$page" "$font"
[[ $said != *"graphics"* ]] || say "a font without groups is reported as one with graphics"
ends 0 "graphics.font: a font with graphics" "${feldrime[@]}" check "$page" "$grouped"
{ head -c 2470 "$grouped"; printf '\5'; } > "$work/group.font"
ends 1 "group.font: refused 12, " "${feldrime[@]}" check "$page" "$work/group.font"
head -c 100 "$font" > "$work/short.font"
ends 1 "short.font: refused 2, " "${feldrime[@]}" check "$page" "$work/short.font"
[[ $said == *"fr.page: a page"* ]] || say "a good page is not reported with a bad font"
ends 1 "refused 2, the length" "${feldrime[@]}" check "$font" "$page"
[[ $said == *"(it is as long as a font)"*"(it is as long as a page)"* ]] || say "a page and a font that changed places are not recognized: $said"
ends 1 "refused 2, the length" "${feldrime[@]}" check "$grouped" "$drawing"
[[ $said == *"(it is as long as a font)"*"refused 1, "*"(it is as long as a page)"* ]] || say "a page of version 3 and a font of version 2 that changed places are not recognized: $said"
ends 1 "refused 1, " "${feldrime[@]}" check /dev/null /dev/null
[[ $said != *"as long as"* ]] || say "an empty file is taken for another kind: $said"
# its byte 7 is IR2, without a back porch 98 hex; its byte 10 is IR5: 52 to 54 cells leave a front porch of 1, 0 and -1
while read -r number place byte missing; do
    cp "$page" "$work/porch.page"
    printf "\\x$byte" | dd of="$work/porch.page" bs=1 seek="$place" conv=notrunc status=none
    ends 1 "porch.page: refused $number, " "${feldrime[@]}" check "$work/porch.page"
    [[ $number -eq 13 || $said == *"(EC in IR1, HSYNC and HBP in IR2, HACT in IR5): $missing" ]] || say "what is missing is not reported: $said"
    [[ $number -ne 13 || $said != *missing* ]] || say "13 reports missing clocks: $said"
    ends 1 "$said" "${feldrime[@]}" draw "$work/porch.page" "$font" "$work/out.png"
done <<< "13 7 98
15 10 33 1 clock is missing
15 10 34 2 clocks are missing
14 10 35 3 clocks are missing
14 10 ff 205 clocks are missing"
for word in check rows; do
    ends 1 "missing.page: cannot be read: No such file" "${feldrime[@]}" "$word" "$work/missing.page"
    ends 1 "cannot be read: Is a directory" "${feldrime[@]}" "$word" "$work"
    ends 1 "refused 1, " "${feldrime[@]}" "$word" /dev/null
    ends 1 "refused 1, " timeout 5 "${feldrime[@]}" "$word" /dev/zero
    status=0
    "${feldrime[@]}" "$word" "$page" > /dev/full 2> "$work/said" || status=$?
    [ "$status" -eq 1 ] && grep -q "standard output: No space left" "$work/said" || say "$word to a full disk ended with $status: $(< "$work/said")"
done

# standard input and output: every file but a site's folder can be -
anew
ends 0 "standard input: a page of 19 rows" "${feldrime[@]}" check - < "$page"
ends 0 "standard input: a font" "${feldrime[@]}" check "$page" - < "$font"
ends 1 "standard input: refused 2, " "${feldrime[@]}" check - < "$font"
ends 1 "standard input: cannot be read: Is a directory" "${feldrime[@]}" check - < "$work"
ends 1 "standard input: cannot be read twice" "${feldrime[@]}" check - - < "$page"
cmp -s <("${feldrime[@]}" rows - < "$page") <("${feldrime[@]}" rows "$page") || say "rows of standard input are others"
cmp -s <("${feldrime[@]}" rows "$page" - < samples/catalogue.phrases) <("${feldrime[@]}" rows "$page" samples/catalogue.phrases) || say "rows by a list on standard input are others"
ends 0 "$work/out/a.png: " "${feldrime[@]}" draw - "$font" "$work/out/a.png" < "$page"
ends 0 "$work/out/b.png: " "${feldrime[@]}" draw "$page" - "$work/out/b.png" < "$font"
env -C "$work/out" "${feldrime[@]}" draw "$page" "$font" - > "$work/c.png" || say "draw to standard output ended with $?"
cmp -s "$work/out/a.png" "$work/out/b.png" && cmp -s "$work/out/a.png" "$work/c.png" || say "a picture by way of standard input or output is another"
only a.png b.png
ends 1 "standard output: No space left on device" bash -c '"$@" > /dev/full' - "${feldrime[@]}" draw "$page" "$font" -
ends 1 "standard output: Bad file descriptor" bash -c '"$@" >&-' - "${feldrime[@]}" draw "$page" "$font" -
ends 1 "standard input: cannot be read: Bad file descriptor" bash -c '"$@" <&-' - "${feldrime[@]}" draw - "$font" -
bash -c '"$@" <&-' - "${feldrime[@]}" draw "$page" "$font" - | cmp -s - "$work/c.png" || say "a picture drawn without standard input is another"
# files that are named like an option, or -
anew
cp "$page" "$work/out/-"
cp "$font" "$work/out/--help"
ends 0 "./-: a page of 19 rows" env -C "$work/out" "${feldrime[@]}" check ./-
ends 1 "./-: the picture cannot replace a file it is drawn from" env -C "$work/out" "${feldrime[@]}" draw -- ./- --help ./-
cmp -s <(env -C "$work/out" "${feldrime[@]}" draw ./- ./--help -) "$work/c.png" || say "a file named - and standard output are taken for one"
