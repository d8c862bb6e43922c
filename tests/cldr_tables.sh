#!/bin/bash
# Makes tables of a small release, written for the purpose, and compares their entries, what is reported on standard error,
# what names mean, statuses, and what decfmt and locnum write with them.
# usage: tests/cldr_tables.sh [DECFMT [LOCNUM]]
source "$(dirname "$0")/usage.sh"
takes 2 -- "$@"
program=${1:-$(dirname "$0")/../crates/decfmt/out/decfmt}
locnum=${2:-$(dirname "$0")/../crates/locnum/out/locnum}
tool=$(dirname "$0")/../tools/cldr_to_tables.py
release=$(dirname "$0")/cldr
folder=$(mktemp -d)
trap 'rm -rf "$folder"' EXIT

source "$(dirname "$0")/cldr_judging.sh"

digits_lines=(
    "root: numbering system greater-ten: its name isn't 3 to 8 small letters and digits, or its digits aren't ten"
    "root: numbering system six: its name isn't 3 to 8 small letters and digits, or its digits aren't ten"
)
draft='qaa_BB: symbols[latn]/group: a draft, unconfirmed: what is inherited stands'

# All modern locales: each locale's own, its parents', aliases, quotes and zeros.
makes modern "$release" --names none
reports "${digits_lines[@]}" "$draft"
counts symbols 15
counts digits 4
counts rules 7
counts short 8
counts long 7
judge 'the version' grep -qF '"cldr":"0.1"' "$folder/modern.json"
has digits '["arab","٠١٢٣٤٥٦٧٨٩"]' '["beng","০১২৩৪৫৬৭৮৯"]' '["deva","०१२३४५६७८९"]' '["latn","0123456789"]'
# own symbols, two sizes of groups, plus from root; another numbering system by an alias to latn
has symbols \
    '{"locale":"qaa","minus":["−",""],"plus":["+",""],"decimal":",","group":".","numsys":"latn","sizes":[3,2,2]}' \
    '{"locale":"qaa","system":"beng","minus":["−",""],"plus":["+",""],"decimal":",","group":".","numsys":"beng","sizes":[3,2,2]}'
# the parent where a subtag is taken off; what is marked as inherited is
has symbols '{"locale":"qaa-001","minus":["−",""],"plus":["+",""],"decimal":",","group":"˙","numsys":"latn","sizes":[3,2,1]}'
# the parent that is named, not that of another component; a draft that counts and one that doesn't; no groups
has symbols '{"locale":"qaa-BB","minus":["−",""],"plus":["＋",""],"decimal":"·","group":"˙","numsys":"latn","sizes":[0,0,1]}'
# nothing of its own; the likely script
has symbols \
    '{"locale":"qaa-CC","minus":["−",""],"plus":["+",""],"decimal":",","group":"˙","numsys":"latn","sizes":[3,2,1]}' \
    '{"locale":"qaa-Latn","minus":["−",""],"plus":["+",""],"decimal":",","group":".","numsys":"latn","sizes":[3,2,2]}'
# a default system by aliases that begin anew at the locale; a negative subpattern around plain numbers
has symbols \
    $'{"locale":"qab","minus":["(","-)"],"plus":["(","+)"],"decimal":".","group":"\u00a0","numsys":"beng","sizes":[3,3,1]}' \
    $'{"locale":"qab","system":"arab","minus":["(","\u061c-)"],"plus":["(","\u061c+)"],"decimal":"٫","group":"٬","numsys":"arab","sizes":[3,3,1]}' \
    $'{"locale":"qab","system":"latn","minus":["(","-)"],"plus":["(","+)"],"decimal":".","group":"\u00a0","numsys":"latn","sizes":[3,3,1]}'
# plural rules: the locale's own, those of a parent that is named for them, else those of what is left without subtags;
# cardinal ones alone
has rules \
    '{"locale":"qaa","rules":[["one","i = 1 and v = 0"]]}' \
    '{"locale":"qaa-001","rules":[["one","i = 1 and v = 0"]]}' \
    '{"locale":"qaa-CC","rules":[["two","n = 2"]]}' \
    '{"locale":"qaa-DD","rules":[["one","i = 0,1"],["few","n % 10 = 2..4 and n % 100 != 12..14 or f % 10 = 2..4"]]}' \
    '{"locale":"qab","rules":[["one","i = 0,1"],["few","n % 10 = 2..4 and n % 100 != 12..14 or f % 10 = 2..4"]]}'
# `0` alone shortens nothing; quoted points and signs, quotes in quotes; repeated types
has short "{\"locale\":\"qaa\",\"patterns\":[[4,4,{\"other\":\"{0}W.\"}],[6,6,{\"other\":\"{0}-m'm'\"}]]}"
# exactly one, a literal alone, a doubled quote; past the last long type the short one, by root's alias
has long "{\"locale\":\"qaa\",\"patterns\":[[3,3,{\"explicit_one\":\"a thousand\",\"one\":\"{0} thousand\",\"other\":\"{0} thousands\"}],[4,3,{\"other\":\"{0} thousands\"}],[5,3,{\"one\":\"{0} thousand\",\"other\":\"{0} thousands\"}],[6,6,{\"one\":\"million\",\"other\":\"x{0} o'clock\"}],[7,6,{\"other\":\"{0}-m'm'\"}]]}"
# a child's pattern for other numbers alone: its parent's for one and for exactly one come before it
has long "{\"locale\":\"qaa-001\",\"patterns\":[[3,3,{\"explicit_one\":\"a thousand\",\"one\":\"{0} thousand\",\"other\":\"{0} grand\"}],[4,3,{\"other\":\"{0} thousands\"}],[5,3,{\"one\":\"{0} thousand\",\"other\":\"{0} thousands\"}],[6,6,{\"one\":\"million\",\"other\":\"x{0} o'clock\"}],[7,6,{\"other\":\"{0}-m'm'\"}]]}"
# categories that the locale's rules haven't
has long "{\"locale\":\"qaa-CC\",\"patterns\":[[3,3,{\"explicit_one\":\"a thousand\",\"other\":\"{0} grand\"}],[4,3,{\"other\":\"{0} thousands\"}],[6,6,{\"other\":\"x{0} o'clock\"}],[7,6,{\"other\":\"{0}-m'm'\"}]]}"
# exactly zero, also where another numbering system's patterns have none; no long patterns, so the short ones
has short \
    '{"locale":"qab","patterns":[[3,3,{"explicit_zero":"none","one":"t{0}","few":"t{0}","other":"{0}t"}],[4,3,{"other":"{0} t"}],[5,3,{"other":"{0}K"}],[6,6,{"other":"{0}M"}]]}' \
    '{"locale":"qab","system":"arab","patterns":[[3,3,{"explicit_zero":"none","one":"{0} x","few":"{0} y","other":"{0} z"}],[4,3,{"other":"{0} t"}],[5,3,{"other":"{0}K"}],[6,6,{"other":"{0}M"}]]}'
has long '{"locale":"qab","patterns":[[3,3,{"explicit_zero":"none","one":"t{0}","few":"t{0}","other":"{0}t"}],[4,3,{"other":"{0} t"}],[5,3,{"other":"{0}K"}],[6,6,{"other":"{0}M"}]]}'

answers 'qaa - plain' '1234\n-1234567.5\n+5\n' '1234\n−12.34.567,5\n+5\n'
answers 'qaa beng plain' '12345\n' '১২.৩৪৫\n'
answers 'qaa arab plain' '12345\n' '١٢.٣٤٥\n'
answers 'qaa - short' '9999\n99999\n-1500000\n1234000000\n' "9999\n10W.\n−1,5-m'm'\n1234-m'm'\n"
answers 'qaa - long' '1000\n1100\n999500\n2000000\n' "a thousand\n1,1 thousands\nmillion\nx2 o'clock\n"
answers 'qaa-BB - plain' '1234567.5\n' '1234567·5\n'
answers 'qab - plain' '-1234\n+5\n' '(১\u00a0২৩৪-)\n(৫+)\n'
answers 'qab arab short' '1000\n2000\n5000\n' '١ x\n٢ y\n٥ z\n'

# Ordinal rules, where they are asked for, found as cardinal ones are.
makes ordinals "$release" qaa qaa-001 qab --ordinals
counts ordinals 3
has ordinals \
    '{"locale":"qaa","rules":[["one","n % 10 = 1 and n % 100 != 11"],["few","n = 3"]]}' \
    '{"locale":"qaa-001","rules":[["one","n % 10 = 1 and n % 100 != 11"],["few","n = 3"]]}' \
    '{"locale":"qab","rules":[]}'
judge 'no ordinals unless they are asked for' [ "$(grep -c '"ordinals"' "$folder/modern.json")" = 0 ]

# Range patterns, where they are asked for: those of the parents, of the aliases of root, and of a system of its own; the
# categories of ranges, without `other`, without those that the rules lack, and with those of a parent for plural rules.
makes ranges "$release" root qaa qaa-001 qaa-CC qaa-DD qab --ranges
reports "${digits_lines[@]}" \
    "qaa_CC: range one-other other: the locale's rules lack one" \
    "qaa_CC: range other-one one: the locale's rules lack one" \
    "qaa_DD: range few-many few: the locale's rules lack many" \
    "qab: range few-many few: the locale's rules lack many"
counts ranges 7
has ranges \
    '{"locale":"und","pattern":"{0}–{1}","approximately":"~"}' \
    '{"locale":"qaa","pattern":"{0}-{1}","approximately":"ca."}' \
    '{"locale":"qaa-001","pattern":"{0}-{1}","approximately":"ca."}' \
    '{"locale":"qab","pattern":"{0}–{1}","approximately":"~"}' \
    $'{"locale":"qab","system":"arab","pattern":"{0}\u2009–\u2009{1}","approximately":"≈"}'
counts plural_ranges 4
has plural_ranges \
    '{"locale":"qaa","ranges":[["other","one","one"]]}' \
    '{"locale":"qaa-001","ranges":[["other","one","one"]]}' \
    '{"locale":"qaa-DD","ranges":[["one","one","one"],["one","few","few"]]}' \
    '{"locale":"qab","ranges":[["one","one","one"],["one","few","few"]]}'
judge 'no ranges unless they are asked for' [ "$(grep -c '"ranges"\|"plural_ranges"' "$folder/modern.json")" = 0 ]
makes no_ranges "$release" qac --ranges
counts ranges 0
judge 'a range pattern with a text before it' \
    grep -qxF "qac: miscPatterns[latn]/range: the range pattern 'from {0} to {1}' isn't some text between {0} and {1}" "$folder/no_ranges.err"
makes json_ranges "$release/json" qaa --ranges
counts ranges 1
has ranges '{"locale":"qaa","pattern":"{0}-{1}","approximately":"ca."}'
has plural_ranges '{"locale":"qaa","ranges":[["other","one","one"]]}'

# Named locales, basic ones too: root as a parent, by name or for a script that isn't likely; a POSIX locale; root.
makes named "$release" root qaa_Arab qaa-deva-cc qaf-ZZ-posix
reports "${digits_lines[@]}" \
    'qaf_ZZ_POSIX: symbols[latn]: the number #,##@0.### has more than #, 0, a group and a point'
counts symbols 4
counts short 4
has symbols \
    $'{"locale":"qaa-Arab","minus":["\u061c-",""],"plus":["\u061c+",""],"decimal":"٫","group":"٬","numsys":"arab","sizes":[3,3,1]}' \
    '{"locale":"qaa-Arab","system":"latn","minus":["-",""],"plus":["+",""],"decimal":".","group":",","numsys":"latn","sizes":[3,3,1]}' \
    '{"locale":"qaa-Deva-CC","minus":["-",""],"plus":["+",""],"decimal":".","group":",","numsys":"latn","sizes":[3,3,1]}' \
    '{"locale":"und","minus":["-",""],"plus":["+",""],"decimal":".","group":",","numsys":"latn","sizes":[3,3,1]}'
has rules '{"locale":"qaf-ZZ-u-va-posix","rules":[]}' '{"locale":"und","rules":[]}'
has long '{"locale":"und","patterns":[[3,3,{"other":"{0}K"}],[6,6,{"other":"{0}M"}]]}'

python3 "$tool" "$release" qaf-ZZ-posix qaa_Arab qaa-Deva-CC qaa-arab root >"$folder/again.json" 2>"$folder/err"
judge 'the order of names' cmp "$folder/again.json" "$folder/named.json"

# A system without symbols and patterns; text around plain numbers; repeats of other numbers, of a category for exactly
# zero and of a type but for exactly one; zeros alone; a pattern without a count, which stands behind all that have one;
# a variant.
makes bare "$release" qae qae-tarask
reports "${digits_lines[@]}" \
    "qae: decimalFormats[deva]/decimalFormatLength/decimalFormat/pattern: '~#,##0;(~#,##0)': text around a plain number is left out" \
    "qae: decimalFormats[latn]/decimalFormatLength/decimalFormat/pattern: '~#,##0;(~#,##0)': text around a plain number is left out" \
    "qae_TARASK: decimalFormats[deva]/decimalFormatLength/decimalFormat/pattern: '~#,##0;(~#,##0)': text around a plain number is left out" \
    "qae_TARASK: decimalFormats[latn]/decimalFormatLength/decimalFormat/pattern: '~#,##0;(~#,##0)': text around a plain number is left out"
has symbols \
    '{"locale":"qae","minus":["-",""],"plus":["+",""],"decimal":".","group":",","numsys":"deva","sizes":[3,3,1]}' \
    '{"locale":"qae-tarask","system":"latn","minus":["-",""],"plus":["+",""],"decimal":".","group":",","numsys":"latn","sizes":[3,3,1]}'
has rules '{"locale":"qae-tarask","rules":[["two","n != 1 and n != 5"]]}'
counts short 2
counts long 2
has short '{"locale":"qae","patterns":[[3,3,{"explicit_one":"K","other":"{0}K"}],[5,3,{"other":"{0}"}],[6,6,{"other":"{0}M"}]]}'
has long '{"locale":"qae","patterns":[[3,3,{"explicit_one":"K","two":"{0} b","other":"{0} a"}],[4,3,{"other":"{0} a"}],[5,3,{"other":"{0}"}],[6,6,{"other":"{0}M"}],[7,6,{"other":"{0} n"}]]}'
answers 'qae - short' '1000\n2000\n' 'K\n२K\n'

# What can't be expressed.
makes inexpressible "$release" qac
reports "${digits_lines[@]}" \
    "qac: plural rule one: the condition 'n is 1' isn't in the grammar" \
    "qac: plural rule two: the condition 'n % 0 = 2' isn't in the grammar" \
    'qac: plural rule several: no such category' \
    "qac: native numbering system roman: its digits aren't in tables" \
    "qac: decimalFormats[latn]/decimalFormatLength/decimalFormat/pattern: 'about #,##0.###': text around a plain number is left out" \
    'qac: decimalFormats/pattern[2000]: its type is no power of ten' \
    "qac: decimalFormats[latn]/short/10000-many: '0W': it counts by another power of ten than the type's first pattern" \
    'qac: decimalFormats[latn]/short/100000: its exponent is below that of the type before it' \
    'qac: decimalFormats[latn]/short/1000: the patterns of the type 1000000, with another exponent' \
    'qac: decimalFormats[latn]/short/10000: the patterns of the type 1000000, with another exponent' \
    'qac: decimalFormats[latn]/short/10000000000000000000000: more than 16 zeros' \
    "qac: decimalFormats[latn]/long/100-other: \"0'{0}'\": {0} in a literal" \
    "qac: decimalFormats[latn]/long/1000-other: 'elfu 0;elfu -0': a negative subpattern; the sign stands before the positive one" \
    "qac: decimalFormats[latn]/long/1000-many: '0 minus-': the sign - within a pattern" \
    "qac: decimalFormats[latn]/long/10000-other: '#0 wan': the number #0 isn't zeros alone" \
    "qac: decimalFormats[latn]/long/100000-other: '0 or 0': a pattern has two numbers" \
    "qac: decimalFormats[latn]/long/1000000-other: '0% million': the special character % within a pattern" \
    "qac: decimalFormats[latn]/long/10000000-other: \"0 'open\": a quote in \"0 'open\" isn't closed" \
    "qac: decimalFormats[latn]/long/100000000-other: '0;0;0': '0;0;0' has three subpatterns" \
    'qac: decimalFormats[latn]/long/1000000000: no pattern has a zero' \
    "qac: decimalFormats[latn]/long/10000000000-other: '000000000000 wide': 12 zeros are more than the digits of the type" \
    "qac: decimalFormats[latn]/long/100000000000-other: '0E0': a pattern has two numbers" \
    'qac: decimalFormats[latn]/long/10000000000000000000000: more than 16 zeros'
has rules '{"locale":"qac","rules":[["many","n = 10..19"]]}'
has short '{"locale":"qac","patterns":[[6,6,{"other":"{0}K"}],[7,6,{"other":"{0}M"}],[21,6,{"other":"{0} far"}]]}'
has long '{"locale":"qac","patterns":[[3,3,{"other":"elfu {0}"}],[21,6,{"other":"{0} far"}]]}'
answers 'qac - plain' '1234\n' '1,234\n'
answers 'qac - long' '5000\n-5000\n' 'elfu 5\n-elfu 5\n'

# Symbols that are too long, a negative subpattern with a currency, aliases in a loop and to another locale.
makes loop "$release" qad
reports "${digits_lines[@]}" \
    "qad: default numbering system roman: its digits aren't in tables" \
    "qad: decimalFormats[beng]/decimalFormatLength/decimalFormat/pattern: '#,##0.###;¤#,##0.###': the special character ¤ within a pattern; the sign stands before numbers" \
    'qad: symbols[beng]: its symbols are more than 255 bytes' \
    "qad: decimalFormats[latn]/decimalFormatLength/decimalFormat/pattern: '#,##0.###;¤#,##0.###': the special character ¤ within a pattern; the sign stands before numbers" \
    'qad: decimalFormats[latn]/short: its aliases lead back to it' \
    'qad: decimalFormats[beng]/long: its aliases lead back to it' \
    'qad: decimalFormats[latn]/long: its aliases lead back to it'
counts symbols 1
counts short 1
has symbols '{"locale":"qad","system":"latn","minus":["-",""],"plus":["+",""],"decimal":".","group":",","numsys":"latn","sizes":[3,3,1]}'
has short "{\"locale\":\"qad\",\"patterns\":[[4,4,{\"other\":\"{0}W.\"}],[6,6,{\"other\":\"{0}-m'm'\"}]]}"

# Sizes and texts past what tables hold; symbols and patterns that aren't there at all.
cp -r "$release/common" "$folder/large"
literal=$(head -c 70000 /dev/zero | tr '\0' x)
cat >"$folder/large/main/qag.xml" <<END
<ldml><numbers>
    <defaultNumberingSystem>six</defaultNumberingSystem>
    <minimumGroupingDigits>300</minimumGroupingDigits>
    <decimalFormats numberSystem="latn"><decimalFormatLength type="short"><decimalFormat>
        <pattern type="1000" count="other">0$literal</pattern>
    </decimalFormat></decimalFormatLength></decimalFormats>
</numbers></ldml>
END
makes large "$folder/large" qag
reports "${digits_lines[@]}" \
    "qag: default numbering system six: its digits aren't in tables" \
    'qag: symbols[latn]: a group of more than 255 digits' \
    'qag: decimalFormats[latn]/short: its patterns are more than 65535 bytes' \
    'qag: decimalFormats[latn]/long: its patterns are more than 65535 bytes'
counts symbols 0
counts rules 1
counts short 0
counts long 0
makes missing "$release/json" qad qae
reports 'qad: symbols[latn]: no minusSign' 'qae: symbols[latn]: no plain pattern'
counts symbols 0
counts long 2

# The other forms of a release: the folder common itself, an archive, JSON packages.
python3 -m zipfile -c "$folder/core.zip" "$release/common"
for form in "$release/common" "$folder/core.zip"; do
    python3 "$tool" --verbose --names none -o "$folder/other.json" "$form" 2>"$folder/err"
    judge "$form: status $?" [ $? = 0 ]
    judge "$form: other tables" cmp "$folder/other.json" "$folder/modern.json"
    judge "$form: other lines" cmp "$folder/err" "$folder/modern.err"
done
makes json "$release/json" --names none
reports
counts symbols 4
judge 'the version of the packages' grep -qF '"cldr":"0.1.0"' "$folder/json.json"
has symbols \
    '{"locale":"qaa","minus":["−",""],"plus":["+",""],"decimal":",","group":".","numsys":"latn","sizes":[3,2,2]}' \
    '{"locale":"qaa","system":"arab","minus":["-",""],"plus":["+",""],"decimal":"٫","group":"٬","numsys":"arab","sizes":[3,3,2]}' \
    '{"locale":"qaa-BB","minus":["−",""],"plus":["+",""],"decimal":"·","group":".","numsys":"latn","sizes":[3,2,2]}'
has digits '["arab","٠١٢٣٤٥٦٧٨٩"]' '["latn","0123456789"]'
has rules '{"locale":"qaa","rules":[["one","i = 1 and v = 0"]]}' '{"locale":"qaa-BB","rules":[["one","i = 1 and v = 0"]]}'
counts short 2
has short '{"locale":"qaa","patterns":[[3,3,{"other":"{0}W."}]]}'
has long \
    '{"locale":"qaa","patterns":[[3,3,{"explicit_one":"a thousand","one":"{0} thousand","other":"{0} thousands"}],[4,3,{"other":"{0} thousands"}]]}' \
    '{"locale":"qaa","system":"arab","patterns":[[3,3,{"other":"{0} x"}]]}'
answers 'qaa arab long' '1000\n' '١ x\n'

source "$(dirname "$0")/cldr_money.sh"

# Names. The release of the folder names: qba in several regions, qbb in two scripts, qbf that is qba by another name.
cp -r "$release/common" "$folder/known"
cp -r "$release/names/." "$folder/known"
makes locales "$folder/known" --names none
# what isn't listed is as well covered as the language, if it has patterns of its own, or as its parent, if it is empty
listed qba qba-AA qba-BB qbb qbb-Cyrl qbb-Cyrl-AA qbb-Latn qbb-Latn-AA qbf
locales=("${names[@]}")
usual=(
    # a region by the data on territories, by languages, whose parent is named, that is likely, by a script
    qba-EE qba-FF qba-GG qbb-AA qbb-CC qbb-EE qbf-AA
    # two scripts, and regions with each
    qbb-Cyrl-CC qbb-Cyrl-EE qbb-Latn-CC qbb-Latn-EE
    # aliases, the longest first, alone and, if they have two letters, with regions
    xq xqa xs qba-old xq-new xq-AA xq-BB xq-EE xq-FF xq-GG xs-AA xs-CC xs-EE
    # old regions: one, the likely one of several, the first of several
    qba-XA qbb-XA qba-XB qbb-XB qba-XC
)
makes names "$folder/known"
listed "${locales[@]}" "${usual[@]}"
is_named qba qba-EE qba-FF xq xqa xq-EE xq-FF
is_named qba-AA xq-AA qba-XA qba-XB
is_named qba-BB xq-BB qba-XC
is_named qba-GG xq-GG
# the parent that is named, but the plural rules of what is left without a subtag
has symbols '{"locale":"qba-GG","minus":["-",""],"plus":["+",""],"decimal":"·","group":",","numsys":"latn","sizes":[3,3,1]}'
has rules '{"locale":"qba-BB","rules":[["two","n = 2"]]}' '{"locale":"qba-GG","rules":[["one","n = 1"]]}'
is_named qbb-Latn qbb-EE qbb-Latn-CC qbb-Latn-EE
is_named qbb-Latn-AA qbb-AA qbb-XA qbb-XB
is_named qbb-Cyrl qbb-CC qbb-Cyrl-CC qbb-Cyrl-EE xs xs-CC xs-EE xq-new
is_named qbb-Cyrl-AA xs-AA
is_named qbf qbf-AA qba-old
has symbols \
    '{"locale":"qba-EE","minus":["-",""],"plus":["+",""],"decimal":",","group":",","numsys":"latn","sizes":[3,3,1]}' \
    '{"locale":"xq-GG","minus":["-",""],"plus":["+",""],"decimal":"·","group":",","numsys":"latn","sizes":[3,3,1]}' \
    '{"locale":"qbf-AA","minus":["-",""],"plus":["+",""],"decimal":",","group":",","numsys":"latn","sizes":[3,3,1]}'
has long '{"locale":"xs-EE","patterns":[[3,3,{"other":"{0} lots"}],[4,3,{"other":"{0}K"}],[6,6,{"other":"{0}M"}]]}'
answers 'qba-XC - plain' '1.5\n' '1·5\n'
answers 'qbb-EE - plain' '1.5\n' '1_5\n'
answers 'xs - short' '1500\n' '1~5L\n'
makes all_names "$folder/known" --names all
listed "${locales[@]}" "${usual[@]}" qba-Latn qba-Latn-{AA,BB,EE,FF,GG} qbf-Latn{,-AA} xqa-{AA,BB,EE,FF,GG}
is_named qba-BB qba-Latn-BB
is_named qba-GG qba-Latn-GG xqa-GG
# levels of coverage, with names
makes moderate "$folder/known" --coverage moderate
listed "${locales[@]}" "${usual[@]}" qbc qbc-AA
makes basic "$folder/known" --coverage basic
listed "${locales[@]}" "${usual[@]}" qbc qbc-AA qbd qbd-AA
makes every "$folder/known" --coverage all --names none
counts rules "$(find "$folder/known/main" -name '*.xml' | wc -l)"
has rules '{"locale":"und","rules":[]}' '{"locale":"qbb-Arab","rules":[]}' '{"locale":"qbe","rules":[]}'
judge 'usual names are the default' cmp "$folder/names.json" <(python3 "$tool" "$folder/known" --names usual 2>/dev/null)
judge 'modern is the default' cmp "$folder/names.json" <(python3 "$tool" "$folder/known" --coverage modern 2>/dev/null)

# Names of the command: own locales as they are written, others as tags.
makes words "$folder/known" XQ_gg qba-latn-ff QBB qbb_CYRL_ee qba-AA
listed qbb qba-AA xq-GG qba-Latn-FF qbb-Cyrl-EE
has symbols '{"locale":"xq-GG","minus":["-",""],"plus":["+",""],"decimal":"·","group":",","numsys":"latn","sizes":[3,3,1]}'
is_named qba-AA qba-Latn-FF

# The JSON packages.
makes json_names "$release/json"
listed qaa qaa-BB qaa-{AA,EE,FF,GG} xq xq-{AA,BB,EE,FF,GG} qaa-XB
is_named qaa qaa-AA qaa-EE qaa-FF xq xq-AA xq-EE xq-FF
is_named qaa-BB qaa-GG xq-BB xq-GG qaa-XB
makes json_moderate "$release/json" --coverage moderate --names none
counts rules 3
has rules '{"locale":"qad","rules":[]}'
makes json_basic "$release/json" --coverage basic --names none
counts rules 4
has rules '{"locale":"qad","rules":[]}' '{"locale":"qac","rules":[]}'
makes json_every "$release/json" --coverage all --names none
counts rules 6
has rules '{"locale":"qae","rules":[]}' '{"locale":"und","rules":[]}'

# What a name means.
means 'the locale qba-BB; write qba-BB - (LOCALE and NU of decfmt)' qba-BB qba_BB QBA-bb qba_BB.UTF-8 qba_BB@euro und-BB \
    xqa-BB qba-Latn-BB qba-BB-rozaj qba-BB-u-co-phonebk
means 'the locale qba-BB; write qba-BB deva (LOCALE and NU of decfmt)' qba-BB-u-nu-deva qba_bb_u_co_phonebk_NU_DEVA
means 'the locale qba-BB; write xq-GG - (LOCALE and NU of decfmt)' xq-GG XQ_gg.utf8
means 'the locale qba; write xq - (LOCALE and NU of decfmt)' xq
means 'the locale qba; write qba-EE - (LOCALE and NU of decfmt)' qba_EE
means 'the locale qbb-Cyrl-AA; write qbb-Cyrl-AA - (LOCALE and NU of decfmt)' qbb_AA@cyrillic qbb-Qabx-AA
means 'the locale qbb-Latn-AA; write qbb-Latn-AA - (LOCALE and NU of decfmt)' qbb-Latn-AA xs-Latn-AA XS_LATN_XA
means 'the locale qbb-Latn-AA; write qbb-XB - (LOCALE and NU of decfmt)' qbb-XB
means 'the locale qbc; write qbc - (LOCALE and NU of decfmt), in tables with --coverage moderate' qbc
means 'the locale qbd; write qbd-AA - (LOCALE and NU of decfmt), in tables with --coverage basic' qbd_AA.UTF-8
means 'the locale qbe; write qbe - (LOCALE and NU of decfmt), in tables with --coverage all' qbe
means 'the locale qaf-ZZ-u-va-posix; write qaf-ZZ-u-va-posix - (LOCALE and NU of decfmt), in tables with --coverage all' \
    qaf-ZZ-u-va-posix qaf_ZZ_POSIX
means 'the locale und; write und - (LOCALE and NU of decfmt), in tables with --coverage all' und root
means 'no locale of the release; the nearest: qba, qba-AA, qba-BB' qba-DD qba-Arab qba-Arab-DD
means 'no locale of the release; the nearest: qba, qba-AA, qba-BB' qba-Arab-GG qba-Qabx
means 'no locale of the release; the nearest: qbb, qbb-Arab, qbb-Cyrl, qbb-Latn, qbb-Cyrl-AA' qbb-Copt-u-nu-latn qbb-Deva
means 'no locale of the release; none is near' zz
means 'no locale of the release; the nearest: qaf-ZZ-u-va-posix' C POSIX C.UTF-8
means 'the release has no digits of a numbering system roman' qba-u-nu-roman

# What was left out, by kinds; how far it is, on a terminal alone.
python3 "$tool" "$release" -o "$folder/out" qac 2>"$folder/err"
judge 'kinds of what is left out' diff - "$folder/err" <<'END'
3 in 2 locales: numbering systems left out (--verbose names each)
3 in 1 locale: plural rules left out (--verbose names each)
1 in 1 locale: plain patterns with a text or a sign left out (--verbose names each)
17 in 1 locale: compact patterns left out (--verbose names each)
1 in 1 locale: compact patterns with a negative subpattern, for which the sign stands before the positive one (--verbose names each)
END
python3 "$tool" "$release" -o "$folder/out" qad qaa-BB 2>"$folder/err"
judge 'entries and drafts left out' diff - "$folder/err" <<END
3 in 2 locales: numbering systems left out (--verbose names each)
1 in 1 locale: drafts below contributed, for which what is inherited stands (--verbose names each)
2 in 1 locale: plain patterns with a text or a sign left out (--verbose names each)
4 in 1 locale: symbols or compact patterns left out as a whole (--verbose names each)
END
python3 -c 'import pty, sys; sys.exit(pty.spawn(sys.argv[1:]) and 1)' \
    python3 "$tool" "$release" -o "$folder/out" qaa qab >"$folder/err" </dev/null
judge 'progress on a terminal' diff <(tr '\r\033' '<~' <"$folder/err") - <<'END'
<~[K0/2 qaa<~[K1/2 qab<~[K2 in 1 locale: numbering systems left out (--verbose names each)<
END

# A folder of tables: a file for each name of a locale, which has the locale under this name alone.
python3 "$tool" "$release" -o "$folder/many/" 2>"$folder/err"
judge 'a folder: one line of each kind' [ "$(sort "$folder/err" | uniq -d)" = '' ]
makes one_file "$release"
grep -o '^{"locale":"[^"]*"' "$folder/one_file.symbols" | cut -d'"' -f4 | sort -u >"$folder/wanted"
judge 'a folder: its files' diff "$folder/wanted" <(cd "$folder/many" && find . -type f | sed 's/^..//; s/\.json$//' | sort)
judge 'a folder: one name a file' [ "$(grep -c '"locale"' "$folder/many/xq-BB.json")" = "$(grep -c '"locale":"xq-BB"' "$folder/many/xq-BB.json")" ]
python3 "$tool" "$release" -o "$folder/all.json" 2>/dev/null
for name in qab xq-AA; do
    judge "a folder: $name as in one file" diff \
        <(printf '1234567.5\n-12\n' | "$program" "$folder/all.json" $name - long) \
        <(printf '1234567.5\n-12\n' | "$program" "$folder/many/$name.json" $name - long)
done
cp -r "$folder/many" "$folder/before"
python3 "$tool" "$release" -o "$folder/many" 2>/dev/null
judge 'a folder that is there: the same bytes' diff -r "$folder/before" "$folder/many"
printf x >"$folder/many/qaa.json"
python3 "$tool" "$release" -o "$folder/many" qaa 2>/dev/null
judge 'a folder: one locale anew' grep -q '"locale":"qaa"' "$folder/many/qaa.json"
judge 'a folder: nothing else is left in it' [ "$(find "$folder/many" -name '.*' -type f)" = '' ]

# Statuses.
ends 0 --help
judge 'help' grep -q 'usage: cldr_to_tables.py' "$folder/out"
ends 0 --version
judge 'version' diff <(echo "cldr_to_tables.py $(cat "$(dirname "$0")/../VERSION")") "$folder/out"
ends 2
ends 2 --none "$release"
mkdir "$folder/empty"
ends 3 "$folder/empty"
ends 3 "$folder/none"
cp -r "$release/common" "$folder/broken"
printf '<ldml><numbers>' >"$folder/broken/main/qaa.xml"
ends 3 "$folder/broken"
rm "$folder/broken/supplemental/plurals.xml"
ends 3 "$folder/broken" root
printf 'PK\003\004' >"$folder/broken.zip"
ends 3 "$folder/broken.zip"
ends 4 "$release" qaa qaz
judge 'an unknown locale' grep -qx 'error: qaz: the release has no such locale' "$folder/err"
judge 'what is near to it' grep -qx 'qaz: no locale of the release; the nearest: .*' "$folder/err"
ends 4 "$folder/known" qba_BB.UTF-8
judge 'another spelling' diff - "$folder/err" <<END
error: qba_BB.UTF-8: the release has no such locale
qba_BB.UTF-8: the locale qba-BB; write qba-BB - (LOCALE and NU of decfmt)
END
ends 4 "$folder/known" --which qba --which zz
judge 'two names' diff - "$folder/out" <<END
qba: the locale qba; write qba - (LOCALE and NU of decfmt)
zz: no locale of the release; none is near
END
ends 2 "$release" --coverage full
ends 2 "$release" --names some
ends 2 "$release" qaa --coverage all
ends 2 "$release" qaa --names all
ends 2 "$release" qaa --which qaa
ends 2 "$release" --which qaa -o "$folder/out"
ends 1 "$release" -o "$folder/none/tables.json"
ends 1 "$release" -o /dev/full
ends 1 "$release" -o "$folder/err/"

ended_all
