# Cases of the program locnum that have to do with tables: where files are at fault, what tables lack, and what they hold.
# tests/locnum.sh sources it, and has the functions.
# shellcheck shell=bash disable=SC2016 # amounts have a dollar sign
: "${folder:?tests/locnum.sh sources this file}"
make_one='locnum: to make one: tools/cldr_to_tables.py core.zip'
cat >"$folder/de.json" <<'GERMAN'
{
"symbols": [{"locale": "de", "minus": ["-", ""], "plus": ["+", ""], "decimal": ",", "group": ".", "numsys": "latn", "sizes": [3, 3, 1]},
 {"locale": "pt", "minus": ["-", ""], "plus": ["+", ""], "decimal": ",", "group": ".", "numsys": "latn", "sizes": [3, 3, 2]},
 {"locale": "pt-BR", "minus": ["-", ""], "plus": ["+", ""], "decimal": ",", "group": ".", "numsys": "latn", "sizes": [3, 3, 1]},
 {"locale": "zh-Hant-TW", "minus": ["-", ""], "plus": ["+", ""], "decimal": ".", "group": ",", "numsys": "latn", "sizes": [3, 3, 1]}],
"digits": [["latn", "0123456789"], ["arab", "٠١٢٣٤٥٦٧٨٩"]],
"rules": [{"locale": "de", "rules": [["one", "i = 1 and v = 0"]]}],
"short": [{"locale": "de", "patterns": [[3, 3, {"other": "{0}K"}], [6, 6, {"other": "{0}M"}]]}],
"units": [{"locale": "de", "width": "short", "unit": "kilometer", "patterns": {"other": "{0} km"}},
 {"locale": "de", "width": "short", "unit": "kilometer-per-hour", "patterns": {"other": "{0} km/h"}},
 {"locale": "de", "width": "short", "unit": "day", "patterns": {"other": "{0} Tg."}},
 {"locale": "de", "width": "short", "unit": "hour", "patterns": {"other": "{0} Std."}},
 {"locale": "de", "width": "short", "unit": "kilogram", "patterns": {"other": "{0} kg"}},
 {"locale": "de", "width": "short", "unit": "meter", "patterns": {"other": "{0} m"}}],
"currencies": [{"locale": "de", "standard": "#,##0.00 ¤", "accounting": "#,##0.00 ¤", "minus": "-", "plus": "+"}],
"currency_symbols": [{"locale": "de", "symbols": [["EUR", "€", "€", {"other": "Euro"}], ["CHF", "CHF", "CHF", {"other": "Franken"}]]}],
"currency_digits": [["DEFAULT", 2, 2]]
}
GERMAN

# damaged FILE FROM TO: a copy of the file with one text in the place of another.
german=$(<"$folder/de.json")
damaged() {
    printf '%s\n' "${german/"$2"/"$3"}" >"$folder/$1"
}

# rejects_file FILE NOTE WORD..: the note behind the name of the file.
rejects_file() {
    local file=$1 note=$2
    shift 2
    rejects "locnum: $file: $note" -t "$file" "$@"
}

program=$(realpath "$program")
cd "$folder" || exit 1
damaged type.json '[6, 6,' '[6, 7,'
rejects_file type.json 'locale de, short, type 6: the exponent is above the type' -l de
damaged falls.json '[6, 6,' '[6, 2,'
rejects_file falls.json 'locale de, short, type 6: the exponent is below the one before' -l de
damaged place.json '{0}M' '{0}M{0}'
rejects_file place.json 'locale de, short, type 6: a pattern has more than one place' -l de
damaged rule.json 'i = 1 and v = 0' 'i = 1 and'
rejects_file rule.json "locale de, rules: rule 0 isn't a condition, by its byte 9" -l de
damaged group.json '"group": ".", "numsys": "latn", "sizes": [3, 3, 2]' '"numsys": "latn", "sizes": [3, 3, 2]'
rejects_file group.json 'locale pt, symbols: group is missing' -l de
damaged sizes.json '[3, 3, 2]' '[3, 3]'
rejects_file sizes.json 'locale pt, symbols: sizes has the wrong kind' -l de
damaged types.json '[6, 6,' '[3, 6,'
rejects_file types.json 'locale de, short: patterns has the wrong kind' -l de
damaged names.json '"CHF", {"other": "Franken"}' '"CHF", {"one": "Franken"}'
rejects_file names.json 'locale de, currency_symbols: other is missing' -l de --currency EUR
damaged locale.json '"pt"' '"p t"'
rejects_file locale.json 'locale p t, symbols: bad locale' -l de
damaged code.json '"CHF", "CHF", "CHF"' '"chf", "CHF", "CHF"'
rejects_file code.json 'locale de, currency_symbols, chf: bad currency code' -l de --currency EUR
damaged digits.json '["DEFAULT", 2, 2]' '["EURO", 2, 2]'
rejects_file digits.json 'currency_digits, EURO: bad currency code' -l de --currency EUR
damaged unit.json '{0} km/h' '{0} {0}'
rejects_file unit.json 'locale de, units, short kilometer-per-hour: a pattern has more than one place' -l de --unit day
damaged comma.json '["latn", "0123456789"],' '["latn", "0123456789"],,'
rejects_file comma.json 'line 6, column 35: not JSON' -l de
printf '{"symbols": [], "digits": []} x\n' >behind.json
rejects_file behind.json 'line 1, column 31: not JSON' -l de
: >empty.json
rejects_file empty.json 'line 1, column 1: not JSON' -l de
echo '[]' >list.json
rejects_file list.json 'not an object of JSON' -l de
echo '{"x": 1.5}' >float.json
rejects_file float.json 'a number that is no 64-bit whole number' -l de
printf '{"x": "caf\xe9"}' >latin1.json
rejects_file latin1.json 'not UTF-8' -l de

rejects "locnum: no locale pt-PT; the tables have pt, pt-BR" -t de.json -l pt-PT
rejects "locnum: no locale zh-TW; the tables have zh-Hant-TW" -t de.json -l zh-TW
rejects "locnum: no locale de without a file of tables (-t); the program has en-US, en
$make_one de -o de.json" -l de
rejects "locnum: en has no currency CHF; the tables have EUR, GBP, JPY, USD
$make_one en --currencies CHF -o en.json" --currency CHF
rejects "locnum: en has no unit kilometer; the tables have permille, percent
$make_one en --units kilometer -o en.json" --unit kilometer
rejects 'locnum: de has no unit km; the tables have kilometer, kilometer-per-hour, meter, kilogram, day, ..' -t de.json -l de --unit km
rejects 'locnum: de has no width of this unit long; the tables have short' -t de.json -l de --unit day --width long
rejects 'locnum: de has no currency CHX; the tables have CHF, EUR' -t de.json -l de --currency CHX
rejects 'locnum: de has no percents, nor has any other locale of the tables' -t de.json -l de --percent
rejects 'locnum: de has no short amounts, nor has any other locale of the tables' -t de.json -l de --currency EUR --style short
rejects 'locnum: de has no amounts with names, nor has any other locale of the tables' -t de.json -l de --currency EUR --width name
rejects 'locnum: pt has no short numbers; the tables have them for de' -t de.json -l pt --style short
rejects 'locnum: en has no numbering system zzzzzz; the tables have latn' --system zzzzzz
rejects 'locnum: de has no numbering system zzzzzz; the tables have arab, latn' -t de.json -l de --system zzzzzz
writes '٥\n' -t de.json -l de --system arab 5
writes '1.234,5\n' -t de.json -l de --system latn 1234.5

writes 'en\nen-US\n' --list locales
writes 'latn\n' --list systems
writes 'EUR\nGBP\nJPY\nUSD\n' --list currencies
writes 'percent\npermille\n' --list units
writes 'de\npt\npt-BR\nzh-Hant-TW\n' --list locales -t de.json
writes 'arab\nlatn\n' --list systems -t de.json
writes 'latn\n' --list systems -t de.json -l de
writes 'day\nhour\nkilogram\nkilometer\nkilometer-per-hour\nmeter\n' --list units -t de.json -l de
writes '' --list units -t de.json -l pt
writes 'CHF\nEUR\n' --list currencies -t de.json
rejects 'locnum: --list: locales, systems, currencies or units' --list colours
rejects 'locnum: no locale fr; the tables have de, pt, pt-BR, zh-Hant-TW' --list units -t de.json -l fr
rejects 'locnum: comma.json: line 6, column 35: not JSON' --list locales -t comma.json
writes '$1,234.50\n' -l en-US --currency USD 1234.5
writes '1.2K\n' -l en-US --style short 1234
cd - >/dev/null || exit 1
