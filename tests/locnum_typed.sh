# Cases of the program locnum as it is typed: its locales, its streams, and arguments that it doesn't take. tests/locnum.sh
# sources it, and has $program, $folder, writes, lines and rejects.
# shellcheck shell=bash disable=SC2016 # commands of `ends` are evaluated later
: "${folder:?tests/locnum.sh sources this file}"

# ends STATUS OUTPUT ERROR COMMAND: what a command of the shell does, in which $program is the program.
ends() {
    local wanted=$1 output=$2 error=$3
    shift 3
    (eval "$1") >"$folder/out" 2>"$folder/err" </dev/null
    status=$?
    judge_run "$1" "$wanted" "$output" "$error"
}

# words
writes '-0.5\n-0.25\n' -.5 -.25
writes '1.2K\n' 1234.5 --sty=short
lines 0 'a 1234\n' 'a 1,234\n' '' --fiel 2
writes '1,234\n12,345\n' --grouping 1234 12345
lines 0 'a\t1234\n' 'a\t1,234\n' '' -d '\t' --field 2
lines 0 'a\t1234\tx\n' 'a\t1,234\tx\n' '' -d tab --field 2
rejects 'locnum: --to is an option of numfmt; --style=short and --style=long write compact numbers' --to=si 5
rejects 'locnum: --from is an option of numfmt; numbers are read without suffixes' --from=iec 5K
rejects 'locnum: --round: neither up, down, ceiling nor floor, with or without half-, nor half-even' --round=nearest 5
rejects 'locnum: --round: neither up, down, ceiling nor floor, with or without half-, nor half-even' --round=from-zero --fraction 0 5
rejects $'locnum: unexpected argument \'--fielt\' found\nlocnum: a similar argument exists: \'--field\'\nlocnum: --help lists the options' --fielt 2
rejects $'locnum: unexpected argument \'-q\' found\nlocnum: --help lists the options' -q
rejects $'locnum: a value is required for \'--style <STYLE>\' but none was supplied\nlocnum: --help lists the options' --style
# locales
writes '1,234\n' -l en_US.UTF-8 1234
writes '1,234\n' -l EN 1234
writes '1,234\n' -l en-us 1234
writes '1,234\n' -l en_US@euro 1234
rejects 'locnum: --locale: not a locale' -l '@euro'
ends 0 '1,234\n' '' 'LC_ALL=C.UTF-8 "$program" -l env 1234'
ends 0 '1,234\n' '' 'LC_ALL= LC_NUMERIC=POSIX LANG=de_DE.UTF-8 "$program" -l env 1234'
ends 0 '1,234\n' '' 'unset LC_ALL LC_NUMERIC LANG; "$program" -l env 1234'
ends 0 '1,234\n' '' 'LC_ALL=de_DE.UTF-8 "$program" 1234'
ends 0 '1\u202f234\n' '' 'LC_ALL= LC_NUMERIC=fr.UTF-8 LANG=de_DE.UTF-8 "$program" -t "$folder/fr.json" -l env 1234'
ends 0 '1\u202f234\n' '' 'LC_ALL=de "$program" -t "$folder/fr.json" 1234'
# names of the header
lines 0 'name,net,gross\na,1234,5678\n' 'name,net,gross\na,"1,234","5,678"\n' '' --csv --header --field net,gross
lines 0 'name net\na 1234\n' 'name net\na 1,234\n' '' --header --field net
lines 1 'id,name,tax,total,netto,gross\n1,a,2,3,4,5\n' 'id,name,tax,total,netto,gross\n' \
    'locnum: no field net; the header has netto, id, name, tax, total' --csv --header --field net
# words have numbers, and hints
ends 2 '1,234\n' 'locnum: word 2: x: not a decimal' '"$program" 1234 x 5'
ends 2 '' $'locnum: word 1: -: not a decimal\nlocnum: standard input is read where no number is given' '"$program" -'
ends 2 '5\n' $'locnum: word 2: never: not a decimal\nlocnum: --grouping takes its word behind =: --grouping=never' '"$program" 5 --grouping never'
ends 0 'many\n5\n' $'locnum: word 1: many: not a decimal\nlocnum: to read a file: < many' 'cd "$folder"; : >many; "$program" --invalid=warn many 5'
ends 0 'many\n' '' 'cd "$folder"; "$program" --invalid=ignore many'
# a chosen field that no record has, and a number that holds the delimiter
lines 0 'a;b\n5;6\n' 'a;b\n5;6\n' 'locnum: no record has field 3' -d ';' --field 3
lines 0 'a;b\n5;6\n' 'a;b\n5;6\n' '' -d ';' --field 3 --invalid ignore
lines 0 '5;6\n7\n' '5;6\n7\n' '' -d ';' --field 2
lines 0 '' '' '' --field 9
lines 0 'a,1234\nb,5678\n' 'a,1,234\nb,5,678\n' 'locnum: 1,234 holds the delimiter; --csv quotes it' -d , --field 2
# streams: a full device, one that is closed, a reader that went away, and a folder
ends 1 '' 'locnum: standard output: No space left on device' '"$program" 5 >/dev/full'
ends 1 '' 'locnum: standard output: No space left on device' 'seq 100000 | "$program" >/dev/full'
ends 1 '' 'locnum: standard output: No space left on device' '"$program" --help >/dev/full'
ends 1 '' 'locnum: standard output: No space left on device' '"$program" --version >/dev/full'
ends 1 '' 'locnum: standard output: No space left on device' '"$program" --list locales >/dev/full'
ends 1 '' 'locnum: standard output: No space left on device' '"$program" --explain 5 >/dev/full'
ends 1 '' 'locnum: standard output: Bad file descriptor' '"$program" 5 >&-'
ends 1 '' 'locnum: standard input: Bad file descriptor' '"$program" <&-'
ends 1 '' 'locnum: standard input: Is a directory' '"$program" </'
ends 1 'the tables in the program: locale en, symbols\n' 'locnum: standard input: Is a directory' '"$program" --explain </'
ends 1 '' '' '"$program" x 2>/dev/full'
ends 2 '' '' '"$program" --invalid=fail x 2>/dev/null >/dev/null'
ends 0 '1\n' '' 'set -o pipefail; { seq 1000000 | "$program"; echo $? >"$folder/ended"; } | head -n 1; [ "$(cat "$folder/ended")" = 141 ]'
ends 0 '' '' '{ sleep 0.2; "$program" --help; echo $? >"$folder/ended"; } | true; sleep 0.5; [ "$(cat "$folder/ended")" = 141 ]'
ends 0 '' '' '{ sleep 0.2; "$program" --explain 5; echo $? >"$folder/ended"; } | true; sleep 0.5; [ "$(cat "$folder/ended")" = 141 ]'
# memory: a million lines in some 60 MB, whether they are plain, rejected or of CSV; one line of 4 MB
seq 1000000 >"$folder/many"
tr '0-9' 'a-j' <"$folder/many" >"$folder/rejected"
ends 0 '1000000\n' '' 'ulimit -v 60000; "$program" <"$folder/many" | wc -l'
ends 0 '1000000\n' '' 'ulimit -v 60000; "$program" --invalid=warn <"$folder/rejected" 2>/dev/null | wc -l'
ends 0 '1000000\n' '' 'ulimit -v 60000; "$program" --csv <"$folder/many" | wc -l'
head -c 4000000 /dev/zero | tr '\0' 'x' >"$folder/wide"
ends 0 '4000001\n' 'locnum: no record has field 2' 'timeout 10 "$program" --field 2 <"$folder/wide" | wc -c'
ends 0 '4000000\n' '' '{ printf "1 "; tail -c +4 "$folder/wide"; echo; } | timeout 10 "$program" | wc -c'
ends 2 '' 'locnum: line 1, field 1: xxxxxxxxxxxxxxxxxxxxxxxxxxxx..xxxxxxxxxxxxxxxxxxxxxxxxxxxx (4000000 characters): not a decimal' \
    'timeout 20 "$program" <"$folder/wide"'
# six near locales, of which one stands twice, by two numbering systems
symbols() {
    printf '{"locale": "%s", "minus": ["-", ""], "plus": ["+", ""], "decimal": ".", "group": ",", "numsys": "%s", "sizes": [3, 3, 1]}' "$@"
}
{
    printf '{"symbols": [%s' "$(symbols en-AU latn)"
    for pair in 'en-CA latn' 'en-CA arab' 'en-GB latn' 'en-IE latn' 'en-NZ latn' 'en-ZA latn'; do
        printf ',\n%s' "$(symbols "${pair% *}" "${pair#* }")"
    done
    printf '], "digits": [["latn", "0123456789"], ["arab", "٠١٢٣٤٥٦٧٨٩"]]}\n'
} >"$folder/near.json"
rejects 'locnum: no locale en-XX; the tables have en-AU, en-CA, en-GB, en-IE, en-NZ, ..' -t "$folder/near.json" -l en-XX
rejects 'locnum: no locale en; the tables have en-AU, en-CA, en-GB, en-IE, en-NZ, ..' -t "$folder/near.json"
writes 'en-AU\nen-CA\nen-GB\nen-IE\nen-NZ\nen-ZA\n' -t "$folder/near.json" --list locales
writes '1,234\n' -t "$folder/near.json" -l en_ca.UTF-8 1234
