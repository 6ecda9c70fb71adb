# Sourced by tests/feldrime: the web site, whole and with pages that cannot be shown; and what the scripts say where something is missing.
site=$work/site
ends 0 "$site/index.html" "${feldrime[@]}" site "$grouped" "$site" samples/*.page
python3 tests/command/site.py "$site" "${runner[@]}" "$example" || failed=1
# a page whose cells blink over 128 fields, by IR4[7] in byte 9, and its cursor over 64, by IR7[4] in byte 12: no sample does
cp samples/sheet.page "$work/slow.page"
for place in 9:80 12:30; do
    byte=$(od -An -tu1 -j"${place%:*}" -N1 samples/sheet.page)
    printf "\\x$(printf %x $((byte | 0x${place#*:})))" | dd of="$work/slow.page" bs=1 seek="${place%:*}" conv=notrunc status=none
done
ends 0 "$work/slow/slow.html" "${feldrime[@]}" site "$font" "$work/slow" "$work/slow.page"
python3 tests/command/site.py --page "$work/slow.page" 3 "$work/slow" "${runner[@]}" "$example" || failed=1

shows() {  # shows FILE TEXT: a file of the site has this text
    grep -qF -- "$2" "$site/$1" || say "$1 does not say: $2"
}

told() {  # told COUNT STEM LINE: so many lines of a web page are this one
    local count
    count=$(grep -cxF -- "$3" "$site/$2.html") || true
    [ "$count" -eq "$1" ] || say "$2.html has $count lines, not $1: $3"
}

# a headline is told once in each text; in the first, the picture's alternative, its line begins with more
shows headline.html "<title>AVALANCHE WARNING</title>"
told 1 headline " AVALANCHE WARNING"
# row 1, whose entry is in cells 8194 and 8195, as a top half again, or as the bottom half of other cells: then each row is told
mkdir "$work/halves"
cp samples/headline.page "$work/halves/tops.page"
printf '\x83' | dd of="$work/halves/tops.page" bs=1 seek=$((29 + 8195)) conv=notrunc status=none
cp samples/headline.page "$work/halves/beside.page"
printf '\xf3' | dd of="$work/halves/beside.page" bs=1 seek=$((29 + 8194)) conv=notrunc status=none
ends 0 "$site/tops.html" "${feldrime[@]}" site "$font" "$site" "$work"/halves/*.page
told 3 tops " AVALANCHE WARNING"
told 1 beside " AVALANCHE WARNING"
told 2 beside "AVALANCHE WARNING"

# graphics are told in the page's language, and not if the font has no groups; of a line with letters and graphics the letters are the title
mkdir "$work/drawn"
cp "$drawing" "$work/drawn/bericht-de.page"
# screen start 1 at cell 176, behind the graphics of row 3 and before those of row 4; and at cell 96, where a row has graphics alone
{ head -c 20 "$drawing"; printf '\0\xb0'; tail -c +23 "$drawing"; } > "$work/drawn/before.page"
{ head -c 20 "$drawing"; printf '\0\x60'; tail -c +23 "$drawing"; } > "$work/drawn/alone.page"
ends 0 "$site/before.html" "${feldrime[@]}" site "$grouped" "$site" "$work"/drawn/*.page
told 2 bericht-de "   [Grafik]                     Below 2200 m"
shows before.html "Above 2200 m                [graphics]"
shows before.html "<title>Above 2200 m</title>"
shows alone.html "<title>Above 2200 m</title>"
ends 0 "$site/alone.html" "${feldrime[@]}" site "$font" "$site" "$work"/drawn/*.page
told 2 bericht-de "                                Below 2200 m"
! grep -q "Grafik" "$site/bericht-de.html" || say "graphics that are not shown are told"

# pages that are refused, two of one name, and names that a web page could not carry
mkdir "$work/pages" "$work/more"
cp "$page" "$work/pages/bulletin-fr.page"
cp "$page" "$work/pages/index.page"
cp "$page" "$work/more/BULLETIN-fr.page"
cp "$page" "$work/pages/<b>&\"ü.page"
head -c 1000 "$page" > "$work/pages/de.page"
# a text that a web page must not take for its own: the title's cells, from 1585 on
cp "$here/samples/en.page" "$work/pages/quoted.page"
printf '\xbc\xe2\xbe\xa6\xa2\xa7\x81' | dd of="$work/pages/quoted.page" bs=1 seek=$((29 + 1585)) conv=notrunc status=none
{ head -c 26 "$page"; printf '\0'; tail -c +28 "$page"; } > "$work/pages/dark.page"
# with ACD on, the cells that set attributes show their characters; strike line 5 covers the hyphen of what is struck
{ head -c 26 "$latching"; printf '\x31\x09\x05'; tail -c +30 "$latching"; } > "$work/pages/acd.page"
pages=("$work/pages/bulletin-fr.page" "$work/pages/de.page" "$work/more/BULLETIN-fr.page" "$work/pages/index.page" "$work/none.page")
pages+=("$work/pages/<b>&\"ü.page" "$work/pages/dark.page" "$work/pages/acd.page" "$work/pages/quoted.page")
ends 1 "de.page: refused 2, " "${feldrime[@]}" site "$font" "$site" "${pages[@]}"
for text in "none.page: cannot be read: No such file" "index.page: its name is that of the site's index" "BULLETIN-fr.page: an earlier page has the same name"; do
    [[ $said == *"$text"* ]] || say "the site does not say: $text"
done
shows index.html "de is not shown: refused 2, the length"
shows index.html "none is not shown: cannot be read"
shows index.html "index is not shown: its name"
shows index.html '<a href="bulletin-fr.html" lang="fr">BULLETIN D'
shows index.html '<a href="_b_____.html" lang="">'
[ "$(grep -c "<li>" "$site/index.html")" -eq ${#pages[@]} ] || say "the index has not an entry for each page"
shows de.html "This page is not shown: refused 2"
shows bulletin-fr.html '<html lang="fr">'
shows dark.html 'alt="The picture shows no text."'
shows dark.html "<title>dark</title>"
shows acd.html " Danger below 1800 m:[4, high]"
shows acd.html "<s>[open one-way until noon to vehicles</s>"
shows acd.html "<s>with chains</s>]closed]and"
quoted="&lt;b&gt;&amp;&quot;'.HE BULLETIN"
shows quoted.html "alt=\" $quoted"
shows quoted.html "<title>$quoted</title>"
shows quoted.html "<h1 lang=\"\">$quoted</h1>"
shows quoted.html "<pre lang=\"\">"
shows index.html "<a href=\"quoted.html\" lang=\"\">$quoted</a>"
[ "$(grep -cx " $quoted" "$site/quoted.html")" -eq 1 ] || say "the text of quoted.html is not quoted"
! grep -q "LAWINEN" "$site/de.html" || say "a page that is refused still shows the old one"
[ -e "$site/en.html" ] || say "another file of the folder is gone"
[ -z "$(find "$site" -name '.feldrime*')" ] || say "something was left in the site's folder"

# a site that cannot be made
anew
ends 1 "refused 2, " "${feldrime[@]}" site "$page" "$work/out/site" "$page"
only
ends 1 "No such file" "${feldrime[@]}" site "$font" "$work/out/none/site" "$page"
echo old > "$work/out/file"
ends 1 "is not a folder" "${feldrime[@]}" site "$font" "$work/out/file" "$page"
only file
mkdir -p "$work/out/site/fr.html" "$work/out/site/index.html"
ends 1 "fr.html: is a folder" "${feldrime[@]}" site "$font" "$work/out/site" "$page"
[[ $said == *"index.html: is a folder"* ]] || say "an index that could not be written is not reported"

# a page from standard input, and a site that cannot go to standard output
anew
ends 0 "site/stdin.html" env -C "$work/out" "${feldrime[@]}" site "$font" site - < "$page"
ends 0 "site/fr.html" env -C "$work/out" "${feldrime[@]}" site - site "$page" < "$font"
ends 1 "standard input: cannot be read twice" env -C "$work/out" "${feldrime[@]}" site - site - < "$font"
misused "a site is a folder and cannot go to standard output" site env -C "$work/out" "${feldrime[@]}" site "$font" - "$page"
only site

# what is missing, and what the first build says: nothing is installed but by ./draw and ./check, which say so first; this
# test may itself run in ./check
mkdir -p "$work/bin" "$work/tree/crates" "$work/tree/samples"
cp -r feldrime draw Makefile include programs tools "$work/tree"
printf '#!/bin/sh\necho "ran apt-get $*"\n' > "$work/bin/apt-get"
chmod +x "$work/bin/apt-get"
for name in awk basename cat find id make mkdir tail tee uname; do
    ln -s "$(command -v "$name")" "$work/few"
done
lacking=(env -u FELDRIME_INSTALL -C "$work/tree" PATH="$work/bin:$work/few")
packages=$(. tools/need.sh; for name in "${compiler[@]}"; do packages_of "$name"; done | xargs)
for command in "./feldrime check en.page" "./feldrime --none" "make"; do
    status=1
    [ "$command" != make ] || status=2
    ends "$status" "missing: ${compiler[*]}. To install, as root: apt-get install --no-install-recommends $packages" "${lacking[@]}" $command
    [[ $said != *"ran apt-get"* ]] || say "$command installed something"
done
ends 1 "missing: ${compiler[*]} pnmtopng. To install, as root: apt-get install --no-install-recommends $packages netpbm" \
    "${other[@]}" "${lacking[@]}" bash -c 'export FELDRIME_INSTALL=1; set -e; . "$0/need.sh"; need "$@"' "$here/tools" "${compiler[@]}" pnmtopng
ends 0 "Usage: feldrime draw" "${lacking[@]}" ./draw --help
[[ $said != *"ran apt-get"* ]] || say "./draw --help installed something"
if [ "$(id -u)" -eq 0 ]; then
    ends 1 "the library must be built first, and Rattle's command rt is missing" "${lacking[@]}" ./draw
    [[ $said == "missing: ${compiler[*]} pnmtopng. Installing: $packages netpbm"$'\n'"ran apt-get update "*"ran apt-get install --no-install-recommends $packages netpbm "* ]] || say "./draw says: $said"
fi
cp -r .ci "$work/tree"
printf '#!/bin/sh\necho "checked in $0"\n' > "$work/tree/check"
chmod +x "$work/tree/check"
ln -s "$work/tree/.ci/run" "$work/run"
for run in "$work/tree/.ci/run" "$work/run"; do
    ends 0 "checked in $work/tree/.ci/../check" env -C / "$run"
done
grep -q '^export FELDRIME_INSTALL=1$' check || say "./check does not install what is missing"
printf 'one:\ntwo: one\nfeldrime_c staticlib: two kit\nother: one\n' > "$work/tree/crates.txt"
mkdir -p "$work/tree/crates/feldrime_c"
ends 1 "the library must be built first, and Rattle's command rt is missing" "${lacking[@]}" bash -c '. "$0/tools/build.sh"; build_archive' "$work/tree"
cat > "$work/bin/rt" << 'END'
#!/bin/sh
[ "$1" = lib ] || exit 2
printf '%s\n' "rt: chose --jobs 2 for one" "logic=proved functions=1"
printf '%s\n' "rt: chose --jobs 2 for two" "logic=$verdict functions=2"
[ "$verdict" = proved ] || exit 1
printf '%s\n' "rt: chose --jobs 2 for feldrime_c" "logic=proved functions=3"
mkdir -p out
echo archive > out/libfeldrime_c.a
END
chmod +x "$work/bin/rt"
build=(env PATH="$work/bin:$PATH" bash -c '. "$0/tree/tools/build.sh"; build_archive' "$work")
ends 0 "proved 3 of 3: feldrime_c" env verdict=proved "${build[@]}"
[[ $said == *"the log is $work/tree/target/build.log"*"proved 1 of 3: one"$'\n'"proved 2 of 3: two"$'\n'* ]] || say "the first build says: $said"
ends 0 "" env verdict=not-proved "${build[@]}"
[ -z "$said" ] || say "what is not older than its sources is built again: $said"
touch "$work/tree/crates.txt"
ends 1 "logic=not-proved" env verdict=not-proved "${build[@]}"
[[ $said != *"of 3: two"* ]] || say "a crate that is not proved is reported as proved"
