#!/bin/bash
# Runs the built program locnum on a table of cases: status, standard output and standard error.
# usage: tests/locnum.sh [PROGRAM]
# The last line is 'N passed, M failed'.

# shellcheck disable=SC2016 # amounts have a dollar sign
source "$(dirname "$0")/usage.sh"
takes 1 -- "$@"
program=$(realpath "${1:-$(dirname "$0")/../crates/locnum/out/locnum}")
source "$(dirname "$0")/outcomes.sh"

# writes OUTPUT WORD..: status 0, nothing on standard error.
writes() {
    local wanted=$1
    shift
    ran "$program" "$@" </dev/null
    judge_run "$*" 0 "$wanted" ''
}

# lines STATUS INPUT OUTPUT ERROR WORD..
lines() {
    local wanted=$1 input=$2 output=$3 error=$4
    shift 4
    ran "$program" "$@" < <(printf '%b' "$input")
    judge_run "$*: ${input:0:40}" "$wanted" "$output" "$error"
}

# rejects ERROR WORD..: status 1, nothing on standard output.
rejects() {
    local error=$1
    shift
    ran "$program" "$@" < <(echo 5)
    judge_run "$*" 1 '' "$error"
}

writes '1,234.5\n-987,654\n' 1234.5 -987654
writes '$1,234.50\n' --currency USD 1234.5
writes '-\xc2\xa51,234\n' --currency JPY -1234.4
writes '($1,234.50)\n' --currency USD --accounting -1234.5
writes '1,234.50 US dollars\n1.00 US dollars\n-5.00 US dollars\n' --currency USD --width name 1234.5 1 -5
writes '1 US dollar\n2 US dollars\n' --currency USD --width name --fraction 0 1.4 1.5
writes '1.00 euros\n' --currency EUR --width name 1
writes '1 euro\n' --currency EUR --width name --fraction 0 1
writes '12 British pounds\n' --currency GBP --width name --fraction 0..2 12
writes '1,234 Japanese yen\n' --currency JPY --width name --cash 1234.4
writes '12.34%\n' --percent 0.1234
writes '12.3%\n' --percent --fraction 1 0.1234
writes '1.5M\n' --style short 1500000
writes '1.5 million\n' --style long 1500000
writes '1.65K\n999.99K\n' --style short --fraction 2 1650 999994
writes '1.3 thousand\n' --style long --round half-up 1250
writes '$1.5M\n-$1.2K\n$0.5\n' --currency USD --style short 1500000 -1234 0.5
writes '\xe2\x82\xac12B\n' --style short --width short --currency EUR 12345678901
writes '\xe2\x82\xac12.35B\n' --style short --width short --fraction 2 --currency EUR 12345678901
writes '$1.3K\n' --style short --currency USD --round half-up 1250
writes '$1.234M\n' --style long --currency USD --significant 4 1234000
writes '1.2 million euros\n1 thousand euros\n' --style long --width name --currency EUR 1234567 999.5
writes '($12)\n-$1.2K\n' --style short --currency USD --accounting -12 -1200
writes '-EUR\xc2\xa012.50\n' --width code --currency EUR -12.5
writes '12.50\n' --width hidden --currency EUR 12.5
writes 'USD\xc2\xa01.2M\n' --width code --currency USD --style short 1234567
writes '12K%\n' --style short --percent 123.45
writes '1.2 million%\n' --style long --percent --fraction 1 12345.67
writes '12 percent\n' --unit percent --width long 12
writes '1.2M\xe2\x80\xb0\n' --unit permille --style short 1234567
writes '12.3\xe2\x80\xb0\n' --permille 0.0123
writes '-1,234.5\xe2\x80\xb0\n' --permille -- -1.2345
writes '1.2M\xe2\x80\xb0\n' --permille --style short 1234.567
writes '5\xe2\x80\xb0\n' --permille --scale 1 5
writes '1.23K percent\n' --skeleton 'K percent unit-width-full-name @@@' 1234
writes '+$1T\n' --currency USD --style short --sign always 999999999999
writes '$1234T\n' --currency USD --style short 1234000000000000
writes '$1,234T\n' --currency USD --style short --grouping=auto 1234000000000000
lines 0 'rent 1250\nfood 431.5\n' 'rent  $1.2K\nfood   $432\n' '' --field 2 --currency USD --style short --padding 6
lines 0 'a,1234567890123456789\n' 'a,"$1,234,568T"\n' '' --csv --field 2 --currency USD --style short
writes '$1,500,000.00\n' --currency USD --style plain 1500000
writes '1,500,000.00 US dollars\n' --currency USD --style plain --width name 1500000
writes '1234567\n' --grouping=never 1234567
writes '+1.20\n' --sign always --fraction 2 1.2
writes '1.2\n1.25\n' --fraction 1..2 1.2 1.25
writes "1.$(printf '%0999d' 0)\n" --fraction 999 1
# digits before the fraction, and powers of ten
writes '007\n007.5\n1,234.56\n' --integer 3 7 7.50 1234.56
writes '007.50\n' --integer 3 --fraction 2 7.5
writes '$0,007.50\n' --integer 4 --currency USD 7.5
writes '1,500\n0.0125\n' --scale 1000 1.5 0.0000125
writes '1.2K\n' --scale 0.01 --style short 123456
writes '$12.34\n' --scale 0.01 --currency USD 1234.5
writes '50%\n5%\n' --percent --scale 1 50 5
writes '0.1\n' --scale 100 --fraction 1 0.00125
source "$(dirname "$0")/locnum_messages.sh"

# number skeletons
writes '1,234.56789\n' --skeleton '' 1234.5678901
writes '\xe2\x82\xac1.2M\n' --skeleton 'K currency/EUR' 1234567.5
writes '1.23M\n' --skeleton 'K .00' 1234567.5
writes '12.3%\n' --skeleton '%x100 .0' 0.12345
writes '($1.00)\n' --skeleton '.00 sign-accounting currency/USD' -1.005
writes '1 Japanese yen\n' --skeleton 'currency/JPY unit-width-full-name' 1
writes '1230000\n' --skeleton '@@# group-off' 1234567
writes '007.2\n' --skeleton 'integer-width/+000 .0' 7.25
writes '$2,000\n' --skeleton '.00/w currency/USD' 2000
lines 0 'rent 1250\nfood 431.5\n' 'rent  +1,250.00\nfood    +431.50\n' '' --field 2 --skeleton '.00 +!' --padding 10
# numbers are rounded: significant digits, increments and modes
writes '7.2\n' --fraction 1 007.25
writes '1,200\n0.50\n' --significant 2 1234 0.5
writes '1.5\n1.23\n' --significant 1..3 1.50 1.2345
writes '1.50\n' --increment 0.50 1.3
writes '2,000\n' --increment 1000 1501
writes '1.15\n1.10\n' --increment 0.05 --round up 1.11 1.1
writes '2\n-2\n2\n' --fraction 0 --round half-even 2.5 -2.5 2.4
writes '3\n-3\n2\n' --fraction 0 --round half-up 2.5 -2.5 2.4
writes '2\n-2\n2\n' --fraction 0 --round half-down 2.5 -2.5 2.4
writes '3\n-2\n2\n' --fraction 0 --round half-ceiling 2.5 -2.5 2.4
writes '2\n-3\n2\n' --fraction 0 --round half-floor 2.5 -2.5 2.4
writes '3\n-3\n3\n' --fraction 0 --round up 2.5 -2.5 2.4
writes '2\n-2\n2\n' --fraction 0 --round down 2.5 -2.5 2.4
writes '3\n-2\n3\n' --fraction 0 --round ceiling 2.5 -2.5 2.4
writes '2\n-3\n2\n' --fraction 0 --round floor 2.5 -2.5 2.4
writes '$0.13\n' --round half-up --currency USD 0.125
writes '-$1.23\n' --round down --currency USD -1.239
writes '\xc2\xa512,000\n' --currency JPY --significant 2 12345
writes '2 US dollars\n' --currency USD --width name --increment 1 --round ceiling 1.2
writes '13%\n' --percent --fraction 0 --round ceiling 0.121
writes '12.5%\n' --percent --increment 0.5 0.12345
lines 0 'rent 1250\nfood 431.5\n' 'rent  1,300\nfood    440\n' '' --field 2 --significant 2 --round up --padding 6
lines 0 'rent 1250\nfood 431.5\n' 'rent $1,250.00\nfood $431.50\n' '' --field 2 --currency USD
lines 0 'a;1234;1234\n' 'a;1234;1,234\n' '' -d ';' --field 3
lines 0 'rent 1250\nfood 431.5\n' 'rent  $1,250.00\nfood    $431.50\n' '' --field 2 --currency USD --padding 10
lines 0 'a 1 x\n' 'a \xc2\xa51      x\n' '' --field 2 --currency JPY --padding=-7
writes '   1,234\n  -1,234\n' --padding 8 1234 -1234
lines 0 'a,1234\n' 'a,"1,234"\n' '' --csv --field 2
lines 0 '"a, b\n""c""",1250\r\nd,7\r\n' '"a, b\n""c""","$1,250.00"\r\nd,$7.00\r\n' '' --csv --field 2 --currency USD
lines 0 'a;"x;y";1234\n' 'a;"x;y";1,234\n' '' --csv -d ';' --field 3
lines 0 '"a\nb",c\nd,5\n' '"a\nb",c\nd,5\n' '' --csv --header --field 2
lines 2 '5\n"x"\n' '5\n' 'locnum: line 2, field 1: x: not a decimal' --csv
lines 2 '5\n"x",y\n' '5\n"x",y\n' 'locnum: line 2, field 1: x: not a decimal' --csv --invalid fail
lines 1 '5\n6,"x\n7\n' '5\n6,' 'locnum: line 2: a quote without an end' --csv
lines 1 'x\n6,"' 'x\n6,' 'locnum: line 2: a quote without an end' --csv --invalid ignore
writes '"1,234"\n7,a\n' --csv 1234 7,a
lines 0 'amount\n1234\n' 'amount\n1,234\n' '' --header
lines 0 'a\nb\n1234' 'a\nb\n1,234\n' '' --header=2
lines 0 '1234\00005678\0000' '1,234\00005,678\0000' '' -z
lines 0 '1234' '1,234\n' ''
lines 0 '' '' ''
writes '1,234\n5,678\n' --header 1234 5678
writes '1,234\n' --header=9 1234
lines 2 '1234\nx\n5\n' '1,234\n' 'locnum: line 2, field 1: x: not a decimal'
lines 2 '1234\nx\n5\n' '1,234\nx\n5\n' 'locnum: line 2, field 1: x: not a decimal' --invalid fail
lines 0 'x\n5\n' 'x\n5\n' 'locnum: line 1, field 1: x: not a decimal' --invalid warn
lines 0 'x\n5\n' 'x\n5\n' '' --invalid ignore
lines 2 '\n' '' 'locnum: line 1, field 1: (empty): not a decimal'

source "$(dirname "$0")/locnum_ranges.sh"

ran "$program" ''
judge_run 'an empty word' 2 '' 'locnum: word 1: (empty): not a decimal'
# explanations: words, lines, each kind, refused texts, and the columns of a line; the first line says what they go by
numbers='the tables in the program: locale en, symbols\n'
amounts='the tables in the program: locale en, currencies\n'
writes "$numbers"'-1234.5\n  -1,234.5\n  ^         minusSign\n   ^^^^^    integer\n    ^       group\n        ^   decimal\n         ^  fraction\n  magnitude  3\n' \
    --explain -1234.5
writes 'the tables in the program: locale en, short\n-1650\n  -1.6K\n  ^      minusSign\n   ^     integer\n    ^    decimal\n     ^   fraction\n  magnitude  3\n  around     1600 (50 below), 1700 (50 above)\n  entry      type 3, exponent 3\n  operands   i=1 v=1 w=1 f=6 t=6 c=0 -> other\n  pattern    {0}K\n' \
    --explain --style short -1650
writes 'the tables in the program: locale en, percents\n0.1234\n  12.3%\n  ^^     integer\n    ^    decimal\n     ^   fraction\n      ^  percentSign\n  rounded    12.34 to 12.3: --fraction 1\n  magnitude  1\n  pattern    {0}%\n' \
    --explain --percent --fraction 1 0.1234
writes "$numbers"'1.11\n  1.15\n  ^     integer\n   ^    decimal\n    ^^  fraction\n  rounded    1.11 to 1.15: --increment 0.05, --round up\n  magnitude  0\n' \
    --explain --increment 0.05 --round up 1.11
writes "skeleton: .00\n$numbers"'1.125\n  1.12\n  ^     integer\n   ^    decimal\n    ^^  fraction\n  rounded    1.125 to 1.12: --skeleton .00\n  magnitude  0\n' \
    --explain --skeleton '  .00' 1.125
writes "skeleton: ''\n$numbers"'7\n  7\n  ^  integer\n  magnitude  0\n' --explain --skeleton '' 7
writes "$numbers"'1200\n  1,200\n  ^^^^^  integer\n   ^     group\n  magnitude  3\n' --explain --significant 2 1200
writes "$amounts"'1234.567\n  $1,234.57\n  ^          currency\n   ^^^^^     integer\n    ^        group\n        ^    decimal\n         ^^  fraction\n  rounded    1234.567 to 1234.57: 2 digits of USD\n  magnitude  3\n  pattern    ${0}\n' \
    --explain --currency USD 1234.567
writes "$amounts"'1\n  1 US dollar\n  ^            integer\n    ^^^^^^^^^  currency\n  magnitude  0\n  operands   i=1 v=0 w=0 f=0 t=0 c=0 -> one\n  pattern    {0} US dollar\n' \
    --explain --currency USD --width name --fraction 0 1
writes "$amounts"'1.5\n  +$1.50\n  ^       plusSign\n   ^      currency\n    ^     integer\n     ^    decimal\n      ^^  fraction\n  magnitude  0\n  pattern    +${0}\n' \
    --explain --currency USD --sign always 1.5
writes 'the tables in the program: locale en, currency_compact\n-1650\n  -$1.6K\n    ^     integer\n     ^    decimal\n      ^   fraction\n  magnitude  3\n  around     1600 (50 below), 1700 (50 above)\n  entry      type 3, exponent 3\n  operands   i=1 v=1 w=1 f=6 t=6 c=0 -> other\n  pattern    -${0}K\n-12\n  -$12\n  ^     minusSign\n   ^    currency\n    ^^  integer\n  magnitude  1\n  around     12 itself\n  entry      none\n  operands   i=12 v=0 w=0 f=0 t=0 c=0 -> other\n  pattern    {0}\n  pattern    -${0}\n' \
    --explain --currency USD --style short -1650 -12
lines 0 ' 5 \r\n\t-7' "$numbers"'5\n  5\n  ^  integer\n  magnitude  0\n-7\n  -7\n  ^   minusSign\n   ^  integer\n  magnitude  0\n' '' --explain
lines 0 '\xef\xbb\xbf5\n' "$numbers"'5\n  5\n  ^  integer\n  magnitude  0\n' '' --explain
lines 2 '5\nx\n7\n' "$numbers"'5\n  5\n  ^  integer\n  magnitude  0\nx\n  not a decimal\n' '' --explain
lines 2 'x\n5\n' "$numbers"'x\n  not a decimal\n5\n  5\n  ^  integer\n  magnitude  0\n' '' --explain --invalid fail
lines 0 'x\n5\n' "$numbers"'x\n  not a decimal\n5\n  5\n  ^  integer\n  magnitude  0\n' '' --explain --invalid warn
lines 0 '' "$numbers" '' --explain
lines 0 '\xef\xbb\xbf' "$numbers" '' --explain
lines 0 '\xef\xbb\xbf' "$numbers" '' --explain --csv
nines=$(head -c 32769 /dev/zero | tr '\0' 9)
shown=${nines:0:28}..${nines:0:28}
lines 2 "$nines\n" "$numbers$shown (32769 characters)\n  too many digits\n" '' --explain
lines 2 "${nines:1}\n" "the tables in the program: locale en, percents\n$shown (32768 characters)\n  overflow\n" '' --explain --percent
five='5\n  5\n  ^  integer\n  magnitude  0\n'
lines 0 "$(printf '5\\n%.0s' {1..2000})" "$numbers$(printf "${five//\\/\\\\}%.0s" {1..2000})" '' --explain
lines 2 '\n' "$numbers"'(empty)\n  not a decimal\n' '' --explain
ran "$program" --explain ''
judge_run 'an empty word, explained' 2 "$numbers"'(empty)\n  not a decimal\n' ''
ran env COLUMNS=15 "$program" --explain 1234
judge_run 'fifteen columns' 0 "$numbers"'1234\n  1,234\n  integer    1,234\n  group      ,\n  magnitude  3\n' ''
ran env COLUMNS=wide "$program" --explain 1234
judge_run 'columns that are no number' 0 "$numbers"'1234\n  1,234\n  ^^^^^  integer\n   ^     group\n  magnitude  3\n' ''
# fields are explained each under a line that says where it stands
lines 0 'rent 1250\nfood  7\n' "$numbers"'line 1, field 2\n1250\n  1,250\n  ^^^^^  integer\n   ^     group\n  magnitude  3\nline 2, field 2\n7\n  7\n  ^  integer\n  magnitude  0\n' '' \
    --explain --field 2
lines 0 'name,net,gross\n"Smith, J."," 1250",x2\n' "$numbers"'line 2, field 2 (net)\n1250\n  1,250\n  ^^^^^  integer\n   ^     group\n  magnitude  3\nline 2, field 3 (gross)\nx2\n  not a decimal\n' '' \
    --explain --csv --header --field gross,net --invalid warn
lines 0 '"a\nb";7\r\n6;"8"' "$numbers"'line 1, field 2\n7\n  7\n  ^  integer\n  magnitude  0\nline 3, field 2\n8\n  8\n  ^  integer\n  magnitude  0\n' '' --explain --csv -d ';' --field 2
lines 2 'a;x;5\n' "$numbers"'line 1, field 2\nx\n  not a decimal\n' '' --explain -d ';' --field 2-
lines 0 'a\n5\0000' "$numbers"'line 1, field 2\n5\n  5\n  ^  integer\n  magnitude  0\n' '' --explain -z --field 2
lines 0 '\xef\xbb\xbf"a\nb",5\n' "$numbers"'line 1, field 2\n5\n  5\n  ^  integer\n  magnitude  0\n' '' --explain --csv --field 2
lines 0 '\xef\xbb\xbf"5",6\n' "$numbers"'line 1, field 1\n5\n  5\n  ^  integer\n  magnitude  0\n' '' --explain --csv
lines 1 'a,b\n1,2\n' "$numbers" 'locnum: no field c; the header has a, b' --explain --csv --header --field c
lines 1 '5\n"6\n7\n' "$numbers"'line 1, field 1\n5\n  5\n  ^  integer\n  magnitude  0\n' 'locnum: line 2: a quote without an end' --explain --csv
lines 0 '1 2\n' "$numbers" 'locnum: no record has field 3' --explain --field 3
writes "$numbers"'word 1\n5\n  5\n  ^  integer\n  magnitude  0\nword 2\n6\n  6\n  ^  integer\n  magnitude  0\n' --explain --field 2 --header 'a 5' 'b 6'
rejects 'locnum: --explain: not with --padding' --explain --padding=9 --field 2
rejects "locnum: en has no currency CHF; the tables have EUR, GBP, JPY, USD
locnum: to make one: tools/cldr_to_tables.py core.zip en --currencies CHF -o en.json" --explain --currency CHF
rejects 'locnum: --locale: not a locale' -l 'a b'
rejects 'locnum: --accounting: not with --width name' --currency USD --width name --accounting
rejects 'locnum: --width: short, narrow, code, hidden or name for money; long, short or narrow for units' --currency USD --width names
rejects 'locnum: --width: short, narrow, code, hidden or name for money; long, short or narrow for units' --unit meter --width name
rejects 'locnum: --accounting and --cash want --currency, and --width wants --currency or --unit' --width name
rejects "locnum: $folder/none.json: No such file or directory" -t "$folder/none.json"
# a folder of tables, by the option or by the variable: the file of the locale
mkdir "$folder/tables"
cp "$(dirname "$0")/../tables/six_locales.json" "$folder/tables/de.json"
cp "$folder/tables/de.json" "$folder/tables/fr-CH.json"
printf '{' >"$folder/tables/ja.json"
mkdir "$folder/tables/bn.json"
writes '1.234,5\n' -t "$folder/tables" -l de 1234.5
writes '1.234,5\n' -t "$folder/tables/" --locale=de 1234.5
writes 'ar-EG\nbn\nde\nen\nfr\nja\n' -t "$folder/tables" -l de --list locales
rejects "locnum: $folder/tables/en.json: No such file or directory" -t "$folder/tables"
rejects "locnum: $folder/tables/de-DE.json: No such file or directory" -t "$folder/tables" -l de_DE.UTF-8
rejects "locnum: $folder/tables/bn.json: Is a directory" -t "$folder/tables" -l bn
rejects 'locnum: no locale fr-CH; the tables have fr' -t "$folder/tables" -l fr-CH
rejects "locnum: $folder/tables/ja.json: line 1, column 1: not JSON" -t "$folder/tables" -l ja
rejects "locnum: --locale: not a locale" -t "$folder/tables" -l ../de
export TALMUIGA_TABLES=$folder/tables
writes '1.234,5\n' -l de 1234.5
rejects "locnum: $folder/tables/en.json: No such file or directory" 1234.5
writes '1.234,5\n' -t "$folder/tables/fr-CH.json" -l de 1234.5
export TALMUIGA_TABLES=$folder/tables/de.json
writes '1.234,5\n' -l de 1234.5
export TALMUIGA_TABLES=
writes '1,234.5\n' 1234.5
unset TALMUIGA_TABLES
rejects 'locnum: --currency, --percent, --permille and --unit: not together' --percent --currency USD
rejects 'locnum: --currency, --percent, --permille and --unit: not together' --unit meter --percent --style plain
rejects 'locnum: --currency, --percent, --permille and --unit: not together' --permille --percent
rejects 'locnum: --cash: not with --style short or long' --currency USD --style short --cash
rejects 'locnum: --cash: not with --style short or long' --currency USD --style long --cash --width name
rejects 'locnum: --style: neither plain, short nor long' --currency USD --style wide
rejects 'locnum: --currency: not three capital letters' --currency usd
rejects 'locnum: --field: neither a list of N, N-, N-M, -M or -, from 1 on, nor one of names' --field 0
rejects 'locnum: --field: neither a list of N, N-, N-M, -M or -, from 1 on, nor one of names' --header --field 1,net
rejects 'locnum: --field: names are those of a header, which --header asks for' --field net
rejects 'locnum: --field: names are those of a header, and arguments have none' --header --field net 5
rejects 'locnum: --header: not a count of lines, from 1 on' --header=0
rejects 'locnum: --delimiter: neither a single byte nor tab' -d tabs
rejects 'locnum: --csv: not with --zero-terminated' --csv -z
rejects 'locnum: --csv: --delimiter is neither a quote, a line feed nor a carriage return' --csv -d '"'
rejects 'locnum: --fraction: neither N nor MIN..MAX, each at most 999' --fraction x
rejects 'locnum: --fraction: neither N nor MIN..MAX, each at most 999' --fraction 1000
rejects 'locnum: --significant: neither N nor MIN..MAX, each from 1 to 999' --significant 0
rejects 'locnum: --increment: not 1, 2, 5 or 25 times a power of ten, in digits' --increment 3
rejects 'locnum: --increment: not 1, 2, 5 or 25 times a power of ten, in digits' --increment '5 percent'
rejects 'locnum: --fraction, --significant, --increment and --cash: not together' --fraction 2 --significant 2
rejects 'locnum: --fraction, --significant, --increment and --cash: not together' --currency USD --cash --fraction 2
rejects 'locnum: --round: neither up, down, ceiling nor floor, with or without half-, nor half-even' --fraction 2 --round nearest
rejects 'locnum: --increment: not with --style short or long, unless 1 is a multiple of it' --style long --increment 25
rejects 'locnum: --increment: not with --style short or long, unless 1 is a multiple of it' --currency USD --style short --increment 5
rejects 'locnum: --round wants --fraction, --significant, --increment or --currency' --round up
rejects 'locnum: --round wants --fraction, --significant, --increment or --currency' --round up --integer 2
rejects 'locnum: --integer: not a number of digits, from 1 to 999' --integer 0
rejects 'locnum: --scale: not a power of ten in digits, such as 100 or 0.01' --scale 12
rejects 'locnum: --scale: not a power of ten in digits, such as 100 or 0.01' --scale '1 percent'
rejects 'locnum: skeleton: left out: scientific, byte 8' --skeleton 'percent scientific'
rejects 'locnum: skeleton: set twice: precision, byte 4' --skeleton '.00 @@'
writes '12.3\xe2\x80\xb0\n' --skeleton permille 12.3
writes '1,234.5\xe2\x80\xb0\n' --skeleton 'group-thousands permille' 1234.5
rejects 'locnum: --skeleton: not with --percent' --skeleton .00 --percent
rejects 'locnum: --skeleton: not with --style' --skeleton foo --system latn --style short
cat >"$folder/fr.json" <<'FRENCH'
{
"symbols": [{"locale": "fr", "minus": ["-", ""], "plus": ["+", ""], "decimal": ",", "group": "\u202f", "numsys": "latn", "sizes": [3, 3, 1]}],
"digits": [["latn", "0123456789"]],
"rules": [{"locale": "fr", "rules": [["one", "i = 0,1"], ["many", "e = 0 and i != 0 and i % 1000000 = 0 and v = 0 or e != 0..5"]]}],
"currencies": [{"locale": "fr", "standard": "#,##0.00\u00a0¤", "accounting": "#,##0.00\u00a0¤;(#,##0.00\u00a0¤)", "minus": "-", "plus": "+", "names": {"other": "{0} {1}"}}],
"currency_symbols": [{"locale": "fr", "symbols": [["USD", "$US", "$", {"one": "dollar des États-Unis", "other": "dollars des États-Unis"}]]}],
"currency_digits": [["DEFAULT", 2, 2]]
}
FRENCH
writes '5,00 dollars des États-Unis\n0,00 dollar des États-Unis\n-1,50 dollar des États-Unis\n' \
    -t "$folder/fr.json" -l fr --currency USD --width name 5 0 -1.5
rejects 'locnum: fr has no currency EUR; the tables have USD' -t "$folder/fr.json" -l fr --currency EUR --width name
rejects 'locnum: fr has no short amounts, nor has any other locale of the tables' -t "$folder/fr.json" -l fr --currency USD --style short
# a file that has one locale alone needs no -l
writes '5,00 dollars des États-Unis\n' -t "$folder/fr.json" --currency USD --width name 5
source "$(dirname "$0")/locnum_typed.sh"
source "$(dirname "$0")/locnum_tables.sh"
# the program may be one that is built without proofs
how=$("$program" --version)
[[ $how == *' (not proved)' ]] && how='not proved' || how=proved
ran "$program" --version
judge_run '--version' 0 "locnum $(cat "$(dirname "$0")/../VERSION") ($how)\n" ''
ended_all
