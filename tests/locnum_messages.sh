# Cases of the program locnum that have to do with messages. tests/locnum.sh sources it, and has $folder, writes, lines and
# rejects.
# shellcheck shell=bash disable=SC2016 # amounts have a dollar sign
: "${folder:?tests/locnum.sh sources this file}"
files='{n, plural, =0{no files} one{# file} other{# files}}'
lines 0 '0\n1\n2\n' 'no files\n1 file\n2 files\n' '' --message "$files"
writes '1.2M views\n1M views\n1 view\n' --style short --message '{n, plural, one{# view} other{# views}}' 1234567 999999 1
writes '1.00 files\n' --fraction 2 --message '{n, plural, one{# file} other{# files}}' 1
writes 'exactly\n2.00 files\n' --fraction 2 --message '{n, plural, =1{exactly} other{# files}}' 1.0 2
writes '1%\none\n' --percent --message '{n, plural, =1{one} other{#}}' 0.01 1
writes 'pay $1.00s\n' --currency USD --message '{n, plural, one{pay #} other{pay #s}}' 1
writes '1 euro is 1\n' --skeleton 'currency/EUR unit-width-full-name precision-integer' --message '{n, plural, one{# is 1} other{# are}}' 1
writes 'one\nelse\n' --message '{n, select, 1{one} other{else}}' 1 2
lines 0 'who,sent\nAna,1\n"Ben, C.",12\n' 'Ana sent 1 file\nBen, C. sent 12 files\n' '' \
    --csv --header --field sent --message "{who} sent $files"
lines 0 'Ana 1\nBen 2000\n' 'Ana: 1; Ana 1\nBen: 2,000; Ben 2000\n' '' --field 2 --message '{f1}: {n}; {f1} {f2}'
lines 0 '3 1000\n1 5\n' '1,000 of 3 files\n5 of 1 file\n' '' --field 2 --message "{n} of {f1, plural, one{# file} other{# files}}"
lines 0 '1 2\n' '1\n2\n' '' --field - --message '{n}'
lines 0 '1\x002\x00' '1!\x002!\x00' '' -z --message '{n}!'
lines 0 '\xef\xbb\xbf7\n' '7\n' '' --message '{n}'
lines 2 'Ana 1\nBen x\nCy 3\n' 'Ana 1\n' 'locnum: line 2, field 2: x: not a decimal' --field 2 --message '{f1} {n}'
lines 2 'Ana 1\nBen x\nCy 3\n' 'Ana 1\nCy 3\n' 'locnum: line 2, field 2: x: not a decimal' --field 2 --invalid fail --message '{f1} {n}'
lines 0 'Ana 1\nBen x\nCy 3\n' 'Ana 1\nCy 3\n' '' --field 2 --invalid ignore --message '{f1} {n}'
lines 2 'Ana 1\n' '' 'locnum: line 1, field 2: no field f3 for the message' --field 2 --message '{f3} {n}'
lines 2 'a b\nAna 1\n' '' 'locnum: line 2, field 2 (b): no field A for the message' --header --field b --message '{A} {n}'
lines 2 'x 1\n' '' 'locnum: line 1, field 2: x: not a decimal' --field 2 --message '{f1, plural, other{#}} {n}'
lines 1 'a,b\n"1' '' 'locnum: line 2: a quote without an end' --csv --header --message '{n}'
catalogue=$folder/messages.json
printf '{"@@locale":"en","files":"{n, plural, one{# file} other{# files}}","@files":{"description":"how many"}}' >"$catalogue"
writes '1 file\n2 files\n' --messages "$catalogue" --id files 1 2
rejects "locnum: $catalogue: no message file" --messages "$catalogue" --id file
printf '{"files":"{n, plural, one{x}}"}' >"$catalogue"
rejects "locnum: $catalogue: the message \`files\`: the choice that ends at byte 18 has no \`other\`" --messages "$catalogue" --id files
printf '{"files":1}' >"$catalogue"
rejects "locnum: $catalogue: the value of \`files\` isn't a text" --messages "$catalogue" --id files
printf '[]' >"$catalogue"
rejects "locnum: $catalogue: the catalogue isn't a JSON object" --messages "$catalogue" --id files
printf '{"files":"\xff"}' >"$catalogue"
rejects "locnum: $catalogue: not UTF-8" --messages "$catalogue" --id files
rm "$catalogue"
rejects "locnum: $catalogue: No such file or directory" --messages "$catalogue" --id files
rejects 'locnum: --message: a key is due at byte 12' --message '{n, plural, uno{x} other{}}'
rejects 'locnum: --message: the text ends within an argument, at byte 2' --message '{n'
rejects 'locnum: --messages and --id: only together' --id a
rejects 'locnum: --message: not with --messages and --id' --message a --id b
rejects 'locnum: --explain: not with a message' --message a --explain
rejects 'locnum: --padding: not with a message' --message a --padding 3

# Places with a form of their own: texts of ICU 72 by the same skeletons, but for the six fraction digits of numbers without a
# precision.
writes '$1,234.50\n' --message '{n, number, ::currency/USD}' 1234.5
writes '12.3%\n' --message '{n, number, ::percent scale/100 .0}' 0.1234
writes '12.3\xe2\x80\xb0\n' --message '{n, number, ::permille scale/1000}' 0.0123
writes '1 British pound\n' --message '{n, number, ::currency/GBP unit-width-full-name precision-integer}' 1
writes '1,234.5 1,234.5\n' --message '{n, number} {n, number, ::}' 1234.5
writes '1,234.56789\n' --message '{n, number}' 1234.5678901
# two forms of one name, and forms beside the one that the options ask for
writes '1,234,567.00 (1.2M)\n1.00 (1)\n' --message '{n, number, ::.00} ({n, number, ::compact-short})' 1234567 1
writes '$1.2M|1,234,567\n' --message '{n, number, ::K currency/USD}|{n}' 1234567
writes '50%: 50% is 0.50\n' --percent --message '{n}: {n, number, ::percent scale/100} is {n, number, ::.00}' 0.5
writes '0.50 0.50\n' --currency USD --message '{n, number, ::.00} {n, number, ::.00}' 0.5
writes '1 file, 1.00\n1,234 files, 1,234.00\n' --message '{n, plural, one{# file, {n, number, ::.00}} other{# files, {n, number, ::.00}}}' 1 1234
writes '1.00 file\n2.00 files\n' --message '{n, plural, one{{n, number, ::.00} file} other{{n, number, ::.00} files}}' 1 2
writes 'the 1.0\n1.5 1.5\n' --message '{n, plural, =1{the {n, number, ::.0}} other{# {n, number, ::.0}}}' 1 1.5
writes '1.234,5 Dateien 1.234,50\n' -t "$(dirname "$0")/../tables/six_locales.json" -l de \
    --message '{n, plural, one{# Datei} other{# Dateien}} {n, number, ::.00}' 1234.5
# fields in a form of their own
lines 0 'who,debt\nAna,1250\nBen,-3.456\n' 'Ana owes \xe2\x82\xac1,250.00\nBen owes -\xe2\x82\xac3.46\n' '' \
    --csv --header --field debt --message '{who} owes {debt, number, ::currency/EUR}'
lines 0 '1 -2\n' '+1 -2 1\n' '' --field 2 --message '{f1, number, ::+!} {f2, number, ::+!} {f1}'
lines 0 '1\x002\x00' '1.0!\x002.0!\x00' '' -z --message '{n, number, ::.0}!'
lines 2 'Ana 1\n' '' 'locnum: line 1, field 2: no field f3 for the message' --field 2 --message '{n}{f3, number, ::.00}'
lines 2 'who,debt\nAna,1\n' '' 'locnum: line 2, field 2 (debt): no field Debt for the message' \
    --csv --header --field debt --message '{Debt, number}'
lines 2 'x 1\n' '' 'locnum: line 1, field 2: x: not a decimal' --field 2 --message '{n} {f1, number, ::.00}'
lines 2 'x 1\n2 1\n' '2.00\n' 'locnum: line 1, field 2: x: not a decimal' --field 2 --invalid fail --message '{f1, number, ::.00}'
lines 2 'x\n' '' 'locnum: line 1, field 1: x: not a decimal' --message '{n, number, ::.00}'
printf '{"debt":"{who} owes {n, number, ::currency/EUR} ({n, number, ::K})","a":"{n, number, ::currency/CHF}"}' >"$catalogue"
lines 0 'who,debt\nAna,1250\n' 'Ana owes \xe2\x82\xac1,250.00 (1.2K)\n' '' --csv --header --field 2 --messages "$catalogue" --id debt
# a form that can't be had is reported before anything is written
to_make='locnum: to make one: tools/cldr_to_tables.py core.zip en'
rejects "locnum: {n, number, ::currency/CHF}: en has no currency CHF; the tables have EUR, GBP, JPY, USD
$to_make --currencies CHF -o en.json" --messages "$catalogue" --id a
rejects "locnum: {f7, number, ::unit/kilometer}: en has no unit kilometer; the tables have permille, percent
$to_make --units kilometer -o en.json" --message '{n} {f7, number, ::unit/kilometer}'
rejects 'locnum: {n, number, ::numbering-system/deva}: en has no numbering system deva; the tables have latn' \
    --message '{n, number, ::.00} {n, number, ::numbering-system/deva}'
sed 's/"percent": "%"/"percent": 5/' "$(dirname "$0")/../tables/english.json" >"$folder/percents.json"
rejects "locnum: {n, number, ::percent}: $folder/percents.json: locale en, percents: percent has the wrong kind" \
    -t "$folder/percents.json" -l en --message '{n, number, ::percent}'
rejects 'locnum: --message: the skeleton is rejected at byte 14: left out: scientific' --message '{n, number, ::scientific}'

# ordinals, by the rules in the program
writes '1st\n2nd\n3rd\n4th\n11th\n12th\n13th\n101st\n111th\n1,022nd\n' \
    --message '{n, selectordinal, one{#st} two{#nd} few{#rd} other{#th}}' 1 2 3 4 11 12 13 101 111 1022
writes '3rd\n' -l en-US --message '{n, selectordinal, one{#st} two{#nd} few{#rd} other{#th}}' 3
rejects 'locnum: de has no ordinal rules, by which the message picks' -t "$(dirname "$0")/../tables/six_locales.json" -l de \
    --message '{n, selectordinal, other{#.}}'
