# Cases of the program locnum that have to do with ranges. tests/locnum.sh sources it, and has $folder, writes, lines and
# rejects.
# shellcheck shell=bash disable=SC2016 # amounts have a dollar sign
: "${folder:?tests/locnum.sh sources this file}"
# arguments that are ranges
writes '3\xe2\x80\x935\n-3 \xe2\x80\x93 5\n7\n' 3..5 -3..5 7
writes '$3.00 \xe2\x80\x93 $5.00\n' --currency USD 3..5
writes '3% \xe2\x80\x93 5%\n' --percent 0.03..0.05
writes '1K \xe2\x80\x93 2K\n~1.2M\n' --style short 1000..2000 1200000..1210000
writes '   3\xe2\x80\x935\n' --padding 6 3..5
writes '~3\n~-3\n' 3..3 -3..-3
writes '~-$3.00\n' --currency USD -3..-3
writes '~3.00 US dollars\n' --currency USD --width name 3..3
writes '    ~3\n' --padding 6 3..3
writes '3\xe2\x80\x935   \n' --padding -6 3..5
writes '1 \xe2\x80\x93 2 thousand\n1 thousand \xe2\x80\x93 2 thousand\n' --style long 1..2000 1000..2000
judge_range() { # judge_range STATUS OUTPUT ERROR WORD..
    local wanted=$1 output=$2 error=$3
    shift 3
    ran "$program" "$@" </dev/null
    judge_run "$*" "$wanted" "$output" "$error"
}
judge_range 2 '' 'locnum: word 1: 5..3: the start is above the end' 5..3 7
judge_range 2 '1\n' 'locnum: word 2: x..3: the start: not a decimal' 1 x..3
judge_range 2 '3..y\n1\n' 'locnum: word 1: 3..y: the end: not a decimal' --invalid fail 3..y 1
judge_range 0 '5..3\n' '' --invalid ignore 5..3
judge_range 0 '1.00\xe2\x80\x932.00 US dollars\n' '' --currency USD --width name 1..2
judge_range 0 '1\xe2\x80\x932 US dollars\n' '' --style long --currency USD --width name 1..2
judge_range 0 '1K \xe2\x80\x93 2K US dollars\n' '' --style short --currency USD --width name 1000..2000
judge_range 2 '' 'locnum: word 1: 1..: not a decimal' 1..

# ranges of two fields: each form of numbers
dash='\xe2\x80\x93'
lines 0 'rent 900 1250 monthly\nfood 300 431.5\n' "rent 900${dash}1,250 monthly\nfood 300${dash}431.5\n" '' --range 2,3
lines 0 'rent 900 1250 monthly\n' "rent \$900.00 $dash \$1,250.00 monthly\n" '' --range 2,3 --currency USD
lines 0 'a 900 1250\n' "a 900.00${dash}1,250.00 US dollars\n" '' --range 2,3 --currency USD --width name
lines 0 'a;0.03;0.05\n' "a;3% $dash 5%\n" '' -d ';' --range 2,3 --percent
lines 0 '900,2000,x\n' "900 $dash 2K,x\n" '' -d , --range 1,2 --style short
lines 0 '1 2000\n' "1 $dash 2 thousand\n" '' --range 1,2 --style long
lines 0 '1 2\n' "1${dash}2 percent\n" '' --range 1,2 --unit percent --width long
lines 0 '3|5000\n' "€3 $dash €5K\n" '' -d '|' --range 1,2 --skeleton 'K currency/EUR'
# where both fields stand: one after the other, with fields between them, the end in front, at the front and at the end
lines 0 '3;5;a\n' "3${dash}5;a\n" '' -d ';' --range 1,2
lines 0 'a;3;b;5;c\n' "a;3${dash}5;b;c\n" '' -d ';' --range 2,4
lines 0 'a;5;b;3;c\n' "a;b;3${dash}5;c\n" '' -d ';' --range 4,2
lines 0 '5;a;3\n' "a;3${dash}5\n" '' -d ';' --range 3,1
lines 0 '3;a;5\n' "3${dash}5;a\n" '' -d ';' --range 1,3
lines 0 'a\t3\tb 5\n' "a\t3${dash}5\tb\n" '' --range 2,4
# blanks, padding, and what ends a line
lines 0 'a ; 3 ; 5 ;b\n' "a ; 3${dash}5 ;b\n" '' -d ';' --range 2,3
lines 0 'a    3  5 b\nc 1000 2000 d\n' "a  3${dash}5 b\nc 1,000${dash}2,000 d\n" '' --range 2,3
lines 0 'a 3 5 b\n' "a      3${dash}5 b\n" '' --range 2,3 --padding 8
lines 0 'a,3,5\r\nb,3\r\n' "a,3${dash}5\r\nb,3\r\n" '' -d , --range 2,3
lines 0 '5,3\r\n' "3${dash}5\r\n" '' -d , --range 2,1
lines 0 'a 3 5' "a 3${dash}5" '' --range 2,3
lines 0 '3 5\00007 9\0000' "3${dash}5\00007${dash}9\0000" '' -z --range 1,2
lines 0 '\xef\xbb\xbf3 5\n' "\xef\xbb\xbf3${dash}5\n" '' --range 1,2
lines 0 '\xef\xbb\xbf' '\xef\xbb\xbf' '' --range 1,2
lines 0 '' '' '' --range 1,2
# one text where both are equal; a line that lacks a field goes through as it is
lines 0 '3 3\n1200000 1210000\n' '~3\n~1.2M\n' '' --range 1,2 --style short
lines 0 'a 3\n\na 3 5\n' "a 3\n\na 3${dash}5\n" '' --range 2,3
lines 0 'a 3\n' 'a 3\n' 'locnum: no record has field 3' --range 2,3
lines 0 '1000,2000\n' "1,000${dash}2,000\n" $'locnum: 1,000\xe2\x80\x932,000 holds the delimiter; --csv quotes it' -d , --range 1,2
# CSV, and the header
lines 0 'item,low,high\nrent,900,1250\n' "item,low\nrent,\"900${dash}1,250\"\n" '' --csv --header --range low,high
lines 0 'item,low,high,note\n"a, ""b""","3","5",x\n' "item,low,note\n\"a, \"\"b\"\"\",\"3${dash}5\",x\n" '' --csv --header --range low,high
lines 0 'high,item,low\n5,"a\nb", 3 \n' "item,low\n\"a\nb\", 3${dash}5 \n" '' --csv --header --range low,high
lines 0 '"low, old";high\n3;5\n' "\"low, old\"\n3${dash}5\n" '' --csv -d ';' --header --range 1,2
lines 0 'a table\nitem low high\nx 3 5\n' "a table\nitem low\nx 3${dash}5\n" '' --header=2 --range low,high
lines 0 'low high item\n' 'low item\n' '' --header --range low,high
lines 1 'item,low\nx,3\n' 'item,low\n' 'locnum: no field high; the header has item, low' --csv --header --range low,high
lines 1 '3,5\n6,"x\n7\n' "3${dash}5\n" 'locnum: line 2: a quote without an end' --csv --range 1,2
# texts that have no range
lines 2 '1 2\n5 3\n1 2\n' "1${dash}2\n" 'locnum: line 2, field 1 to field 2: 5..3: the start is above the end' --range 1,2
lines 2 'a,b,5,3\nc,d,1,2\n' 'a,b,' 'locnum: line 1, field 3 to field 4: 5..3: the start is above the end' -d , --range 3,4
lines 2 'a,3,b,5\n' 'a,' 'locnum: line 1, field 4 to field 2: 5..3: the start is above the end' --csv --range 4,2
lines 2 '5 3\n1 2\n' "5 3\n1${dash}2\n" 'locnum: line 1, field 1 to field 2: 5..3: the start is above the end' --range 1,2 --invalid fail
lines 0 'x 3\n1 2\n' "x 3\n1${dash}2\n" 'locnum: line 1, field 1 to field 2: x..3: the start: not a decimal' --range 1,2 --invalid warn
lines 0 'x 3\n1 2\n' "x 3\n1${dash}2\n" '' --range 1,2 --invalid ignore
lines 2 'low,high\n3,"y z"\n' 'low\n3,"y z"\n' 'locnum: line 2, field 1 (low) to field 2 (high): 3..y z: the end: not a decimal' \
    --csv --header --range low,high --invalid fail
lines 2 '3;;\n' '' 'locnum: line 1, field 3 to field 1: (empty)..3: the start: not a decimal' -d ';' --range 3,1
lines 0 '1 2000000\n' "1 $dash 2 million US dollars\n" '' --range 1,2 --style long --currency USD --width name
# large fields, and many lines
zeros=$(printf '%0999d' 0)
lines 0 "${zeros}3 ${zeros}5\n" "${zeros}3${dash}${zeros}5\n" '' --range 1,2 --grouping=never
lines 0 "3,$(printf 'x%.0s' {1..70000}),5\n" "3${dash}5,$(printf 'x%.0s' {1..70000})\n" '' -d , --range 1,3
lines 0 "$(printf 'a 3 5\\n%.0s' {1..20000})" "$(printf "a 3${dash//\\/\\\\}5\\\\n%.0s" {1..20000})" '' --range 2,3
# what doesn't stand beside it
rejects 'locnum: --range: not with --field' --range 1,2 --field 3
rejects 'locnum: --range: not with --explain' --range 1,2 --explain
rejects 'locnum: --range: not with --message' --range 1,2 --message '{n}'
rejects 'locnum: --range: not with --messages' --range 1,2 --messages x.json --id a
rejects 'locnum: --range: not with --id' --range 1,2 --id a
rejects 'locnum: --range: not with numbers as arguments' --range 1,2 5
rejects 'locnum: --range: not with numbers as arguments' --range 1,2 3..5
for fields in 1 1,2,3 1-2 1-2,3 0,1 1, 1,x low 'low,high,note'; do
    rejects 'locnum: --range: not two fields N,M, from 1 on, nor two names' --header --range "$fields"
done
rejects 'locnum: --range: both fields are the same' --range 2,2
rejects 'locnum: --range: both fields are the same' --header --range low,low
rejects 'locnum: --range: names are those of a header, which --header asks for' --range low,high
