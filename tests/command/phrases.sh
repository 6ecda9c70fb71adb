# Sourced by tests/feldrime: lists of phrases, by which rows names a row's phrase and site decides which pages it shows.
python3 tests/command/phrases.py "${feldrime[@]}" || failed=1
list=$here/samples/catalogue.phrases
slip=$here/samples/slip-en.page
site=$work/checked

listed() {  # listed LINE..: work/list.phrases has these lines, behind two good ones
    { printf 'en 1 0 16384\n# a comment\n'; printf '%b\n' "$@"; } > "$work/list.phrases"
}

both() {  # both STATUS TEXT LIST: rows and site, of which neither may print or make anything
    ends "$1" "$2" "${feldrime[@]}" rows "$page" "$3"
    [[ $said != *"BULLETIN"* ]] || say "rows were listed with a list that is not taken: $3"
    ends "$1" "$2" "${feldrime[@]}" site "$font" "$site" --phrases "$3" "$page"
    [ ! -e "$site" ] || say "a site was made with a list that is not taken: $3"
}

# wrong uses, a page that is refused before its list, and lists that cannot be read
misused "option '--phrases' requires an argument" site "${feldrime[@]}" site "$font" "$site" "$page" --phrases
misused "option '--unchecked' requires an argument" site "${feldrime[@]}" site "$font" "$site" "$page" --unchecked
misused "missing operand" site "${feldrime[@]}" site "$font" "$site" --phrases "$list"
misused "option '--phrases' is given twice" site "${feldrime[@]}" site "$font" "$site" --phrases "$list" --phrases "$list" "$page"
for word in draw rows check catalogue sheet; do
    misused "unrecognized option '--phrases'" "$word" "${feldrime[@]}" "$word" --phrases "$list" "$page" "$font" "$work/a"
done
[ ! -e "$site" ] || say "a wrong use made something"
ends 1 "deck.font: refused 2, " "${feldrime[@]}" rows "$font" "$work/missing"
[[ $said != *"missing"* ]] || say "a list is judged before its page"
both 1 "missing: cannot be read: No such file" "$work/missing"
both 1 "cannot be read: Is a directory" "$work"
both 1 "zero: line 1 is not a phrase: a phrase is a language" /dev/zero
both 1 "fr.page: line 1 is not a phrase" "$page"

# lines that are no records, and lines that are
while IFS= read -r line; do
    listed "$line"
    both 1 "list.phrases: line 3 is not a phrase: a phrase is a language (de, en, fr, it or sl), its number, its first cell and its length in cells" "$work/list.phrases"
done <<< 'xx 1 2 3
d 1 2 3
deu 1 2 3
1 2 3
de 1 2
de 1 2 3 4
de 1 2 #3
de -1 2 3
de 1 +2 3
de 1 2 0x3
de 1 2 3.0
de,1,2,3
de 4294967296 2 3
de 1 4294967296 3
de 1 2 99999999999999999999
de 1 2 3\0
# a byte \0
\0'
listed "#$(printf '%499s')"
both 1 "line 3 is not a phrase" "$work/list.phrases"
listed "#$(printf '%498s')" "" " \t " "de 4294967295 16383 1" "DE\t0\t0\t1\r" "de 1 2 3#4"
ends 0 "en 1 " "${feldrime[@]}" rows "$page" "$work/list.phrases"
: > "$work/empty.phrases"
ends 0 "no phrase" "${feldrime[@]}" rows "$page" "$work/empty.phrases"

# records that are refused, the first of them, and before any two that disagree
while read -r line record; do
    listed "de 1 0 1" "$record" "de 1 0 2" "fr 1 0 0"
    both 1 "list.phrases: refused 20, a phrase record has length 0 or passes cell 16383: line $line" "$work/list.phrases"
done <<< '4 it 1 300 0
4 it 1 16383 2
4 it 1 16384 1
4 it 1 4294967295 4294967295
6 it 1 16383 1'

# two that disagree: rows are listed all the same, and a site is not made
listed "de 7 300 48" "de 7 300 47"
ends 1 "list.phrases: lines 3 and 4 disagree: de 7 has 48 cells from cell 300 on, and 47 from cell 300 on" "${feldrime[@]}" rows "$page" "$work/list.phrases"
listed "de 7 300 48" "fr 7 300 48" "de 7 300 48" "de 7 301 48" "de 7 300 47"
ends 1 "list.phrases: lines 3 and 6 disagree: de 7 has 48 cells from cell 300 on, and 48 from cell 301 on" "${feldrime[@]}" rows "$page" "$work/list.phrases"
[[ $said == *"BULLETIN D'AVALANCHES"*"Prochain bulletin"*"disagree"* ]] || say "rows are not listed before what disagrees: $said"
ends 1 "list.phrases: lines 3 and 6 disagree" "${feldrime[@]}" site "$font" "$site" --phrases "$work/list.phrases" "$page"
[ ! -e "$site" ] || say "a site was made with a list that contradicts itself"
status=0
"${feldrime[@]}" rows "$page" "$work/list.phrases" > /dev/full 2> "$work/said" || status=$?
[ "$status" -eq 1 ] && grep -q "standard output: No space left" "$work/said" || say "rows to a full disk ended with $status: $(< "$work/said")"

# the slip: shown without a list, and by --unchecked; else not, wherever the option stands, and the page that stood there is gone
ends 0 "$site/slip-en.html" "${feldrime[@]}" site "$font" "$site" "$slip"
ends 0 "$site/slip-en.html" "${feldrime[@]}" site "$font" "$site" --unchecked "$slip"
for options in "--phrases $list --unchecked $slip" "--unchecked=$slip --phrases=$list" "--unch $slip --phr $list"; do
    for arguments in "$options $font $site samples/en.page samples/sl.page" "$font $site samples/en.page samples/sl.page $options" "$font $options $site samples/en.page -- samples/sl.page"; do
        ends 0 "$site/en.html"$'\n'"$site/sl.html"$'\n'"$site/slip-en.html"$'\n'"$site/index.html" "${feldrime[@]}" site $arguments
        shows slip-en.html "<img "
    done
done
ends 0 "$site/sheet.html"$'\n'"$site/slip-en.html" "${feldrime[@]}" site --unchecked samples/sheet.page "$font" "$site" --phrases - samples/en.page --unchecked "$slip" < "$list"
ends 1 "slip-en.page: an earlier page has the same name in the site" "${feldrime[@]}" site "$font" "$site" "$slip" --unchecked "$slip"
for arguments in "--phrases $list $font $site $slip samples/en.page" "$font $site $slip samples/en.page --phrases $list" "$font $site $slip --phrases $list samples/en.page"; do
    ends 1 "slip-en.page: row 8, cells 4000 to 4047, is in no phrase of en: |stable " "${feldrime[@]}" site $arguments
    [[ $said == *"slip-en.page: 1 of its 19 rows is in no phrase of its language"*"$site/en.html"* ]] || say "the site with a slip says: $said"
    [[ $said != *"$site/slip-en.html"* && $said != *"row 10"* ]] || say "more is said of the slip: $said"
done
shows slip-en.html '<p class="refused">This page is not shown: 1 of its 19 rows is in no phrase of its language</p>'
shows index.html "slip-en is not shown: 1 of its 19 rows is in no phrase of its language"
shows index.html '<a href="en.html" lang="en">AVALANCHE BULLETIN</a>'
! grep -q "<img " "$site/slip-en.html" || say "a page with a slip is still shown"

# a page of another language, one whose name gives none, and a list whose first phrase is of another language and holds all
anew
cp samples/de.page "$work/out/en-de.page"
cp samples/en.page "$work/out/bulletin.page"
cp samples/en.page "$work/out/bulletin-EN.page"
{ echo "sl 99 0 16384"; cat "$list"; } > "$work/list.phrases"
ends 1 "en-de.page: 19 of its 19 rows are in no phrase of its language" "${feldrime[@]}" site "$font" "$site" --phrases "$work/list.phrases" "$work"/out/*.page
[[ $said == *"bulletin.page: its name gives no language, so none of the phrases is its own"* ]] || say "a page without a language is shown: $said"
[[ $said == *"$site/bulletin-EN.html"* ]] || say "a phrase of another language hides the page's own: $said"
shows bulletin.html "This page is not shown: its name gives no language"

# names that look like the option
anew
cp samples/en.page "$work/out/--phrases"
ends 0 "site/--phrases.html" env -C "$work/out" "${feldrime[@]}" site "$font" site ./--phrases
ends 0 "site/--phrases.html" env -C "$work/out" "${feldrime[@]}" site "$font" site -- --phrases
cp "$list" "$work/out/--phrases"
ends 0 "site/en.html" env -C "$work/out" "${feldrime[@]}" site "$font" site --phrases --phrases "$here/samples/en.page"
ends 0 "en 11 " env -C "$work/out" "${feldrime[@]}" rows "$here/samples/en.page" ./--phrases
only --phrases site
