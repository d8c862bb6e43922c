# Money, percents and units of the small release. tests/cldr_tables.sh sources it.
# shellcheck shell=bash
: "${folder:?tests/cldr_tables.sh sources this file}"

money_lines=("${digits_lines[@]}" 'root: currency QQD: more than 15 digits')
own='money is written in the locale'"'"'s own way'
percents=percentFormatLength/percentFormat/pattern
groups="its groups aren't those of '#,##,##0.###', which stand"
named="unitPattern[other]: '#,##,##0.###': its groups aren't those of"

# CLDR's patterns, with the accounting pattern's brackets, and the signs; separators and groups of its own; a narrow
# symbol of root beside the locale's own symbol; what stands without a count; the code for what isn't there.
makes money "$release" qaa root --currencies QQA,QQB,QQC,QQD
reports "${money_lines[@]}" \
    "qaa: currencyFormats[latn]/$named '#,##0.00\\xa0¤', which stand" \
    "qaa: currencyFormats[beng]/$named '#,##0.00\\xa0¤', which stand" \
    "qaa: currencies/currency[QQC]/pattern: $own" \
    "qaa: currencies/currency[QQC]/group: $own"
counts currencies 2
has currencies \
    $'{"locale":"qaa","standard":"#,##0.00\u00a0¤","accounting":"#,##0.00\u00a0¤;(#,##0.00\u00a0¤)","minus":"−","plus":"+","names":{"one":"{1} {0}","other":"{0} {1}"}}' \
    $'{"locale":"und","standard":"¤\u00a0#,##0.00","accounting":"¤\u00a0#,##0.00","minus":"-","plus":"+","names":{"other":"{0} {1}"}}'
has currency_decimals \
    '{"locale":"qaa","minus":["−",""],"plus":["+",""],"decimal":"·","group":"˙","numsys":"latn","sizes":[3,3,2]}' \
    '{"locale":"qaa","system":"beng","minus":["−",""],"plus":["+",""],"decimal":"·","group":"˙","numsys":"beng","sizes":[3,3,2]}'
counts currency_decimals 2
has currency_symbols \
    '{"locale":"qaa","symbols":[["QQA","A","a",{"one":"one alpha","other":"alphas"}],["QQB","B$","$",{"other":"beta"}],["QQC","QQC","QQC",{"other":"gamma"}],["QQD","QQD","QQD",{"other":"QQD"}]]}' \
    '{"locale":"und","symbols":[["QQA","QQA","a",{"other":"QQA"}],["QQB","B$","$",{"other":"QQB"}],["QQC","QQC","QQC",{"other":"QQC"}],["QQD","QQD","QQD",{"other":"QQD"}]]}'
has currency_digits '["DEFAULT",2,2]' '["QQB",0,0]' '["QQC",3,1,5]'
counts currency_digits 3
# compact patterns with their quotes; `0` alone shortens nothing; a type that repeats; none for a symbol that ends in a letter
has currency_compact \
    $'{"locale":"qaa","patterns":[[4,4,{"one":"0 wan\'.\' ¤","other":"0 wans ¤"}]]}' \
    '{"locale":"und","patterns":[[3,3,{"other":"¤0K"}]]}'
counts currency_compact 2
keys=("$folder"/money.*)
judge 'no other keys' [ ${#keys[@]} = 12 ]
# decfmt reads such tables as it reads those without money
answers 'qaa - plain' '1234\n-1234567.5\n' '1234\n−12.34.567,5\n'
answers 'qaa - short' '99999\n' '10W.\n'

# All currencies of which something is said; a parent's data.
makes all_money "$release" qaa-001 --currencies all
has currency_symbols '{"locale":"qaa-001","symbols":[["QQA","A","a",{"one":"one alpha","other":"alphas"}],["QQB","B$","$",{"other":"beta"}],["QQC","QQC","QQC",{"other":"gamma"}]]}'
counts currencies 1

# Percents: a sign behind the number, brackets without a sign; a system with signs of its own, and one without; groups
# that aren't those of numbers.
makes percents "$release" qaa qab --percents
reports "${digits_lines[@]}" "qaa: percentFormats[latn]/$percents: '%#,##0;(%#,##0-)': $groups" \
    "qaa: percentFormats[beng]/$percents: '%#,##0;(%#,##0-)': $groups"
counts percents 3
has percents \
    '{"locale":"qaa","pattern":"%#,##0;(%#,##0-)","minus":"−","plus":"+","percent":"%","permille":"‰"}' \
    $'{"locale":"qab","pattern":"#,##0\u00a0%;[#,##0\u00a0%]","minus":"-","plus":"+","percent":"%","permille":"‰"}' \
    $'{"locale":"qab","system":"arab","pattern":"#,##0\u00a0%;[#,##0\u00a0%]","minus":"\u061c-","plus":"\u061c+","percent":"٪\u061c","permille":"؉"}'

# Units: three widths with root's aliases between them, no other cases, a pattern without a number, one with two.
makes units "$release" qaa --units kilometer,day
reports "${digits_lines[@]}" \
    "qaa: unitLength[narrow]/unit[duration-day]/unitPattern[other]: '{0}d{0}': more than one place"
has units \
    '{"locale":"qaa","width":"long","unit":"kilometer","patterns":{"one":"{0} kilo","other":"{0} kilos"}}' \
    '{"locale":"qaa","width":"long","unit":"day","patterns":{"other":"{0} d"}}' \
    '{"locale":"qaa","width":"short","unit":"kilometer","patterns":{"other":"{0} km"}}' \
    '{"locale":"qaa","width":"short","unit":"day","patterns":{"other":"{0} d"}}' \
    '{"locale":"qaa","width":"narrow","unit":"kilometer","patterns":{"one":"kilo","other":"{0} km"}}'
counts units 5
makes all_units "$release" root --units all
counts units 6
has units '{"locale":"und","width":"narrow","unit":"day","patterns":{"other":"{0} d"}}'

# What can't be expressed: a symbol's code, per mille.
makes no_money "$release" qac --currencies QQA --percents
judge 'two symbols' grep -qxF "qac: currencyFormats[latn]: ¤ stands 2 times in a subpattern of '¤¤ #,##0.00', not once" "$folder/no_money.err"
judge 'per mille' grep -qxF 'qac: percentFormats[latn]: the special character ‰ within a pattern' "$folder/no_money.err"
counts currencies 0
counts currency_decimals 0
counts percents 0

# Patterns as they stand, quotes and signs too, and those that can't be expressed; symbols of money that are too large.
cp -r "$release/common" "$folder/odd"

# odd LOCALE STANDARD [ACCOUNTING [PERCENT [GROUP]]]: a locale with these patterns and this separator of groups in money
odd() {
    cat >"$folder/odd/main/$1.xml" <<END
<ldml><numbers>
    <symbols numberSystem="latn"><currencyGroup>${5:-,}</currencyGroup></symbols>
    <currencyFormats numberSystem="latn"><currencyFormatLength>
        <currencyFormat type="standard"><pattern>$2</pattern></currencyFormat>
        <currencyFormat type="accounting"><pattern>${3:-¤0}</pattern></currencyFormat>
    </currencyFormatLength></currencyFormats>
    <percentFormats numberSystem="latn">
        <percentFormatLength><percentFormat><pattern>${4:-#,##0%}</pattern></percentFormat></percentFormatLength>
    </percentFormats>
</numbers></ldml>
END
}

odd qba "#,##0 'E''1' ¤-" '¤#,##,##0;(¤#,##0)' "0%-'%'"
odd qbb '¤E #,##0'
odd qbc '¤;¤0' '¤0' '#,##0¤'
odd qbd '¤0' '¤0;(0)'
odd qbe '#,##5 ¤'
odd qbf "¤0'" '¤0' '%'
odd qbg '¤#,##0%'
odd qbh '#,##0¤' '#,##0¤' '#,##0%' "$(printf '%0256d' 0)"
odd qbi '¤0'
makes odd "$folder/odd" qba qbb qbc qbd qbe qbf qbg qbh qbi --currencies QQA --percents
reports "${digits_lines[@]}" \
    "qba: currencyFormats[latn]/currencyFormatLength/currencyFormat[accounting]/pattern: '¤#,##,##0;(¤#,##0)': its groups aren't those of \"#,##0 'E''1' ¤-\", which stand" \
    "qba: percentFormats[latn]/$percents: \"0%-'%'\": its groups aren't those of '#,##0.###', which stand" \
    'qbb: currencyFormats[latn]: the special character E within a pattern' \
    "qbc: currencyFormats[latn]: a subpattern of '¤;¤0' has no number" \
    'qbc: percentFormats[latn]: the special character ¤ within a pattern' \
    "qbd: currencyFormats[latn]: ¤ stands 0 times in a subpattern of '¤0;(0)', not once" \
    'qbe: currencyFormats[latn]: the number #,##5 has more than #, 0, a group and a point' \
    "qbf: currencyFormats[latn]: a quote in \"¤0'\" isn't closed" \
    "qbf: percentFormats[latn]: a subpattern of '%' has no number" \
    'qbg: currencyFormats[latn]: the special character % within a pattern' \
    'qbh: symbols of money[latn]: its symbols are more than 255 bytes' \
    "qbi: currencyFormats[latn]/unitPattern[other]: '#,##0.###': its groups aren't those of '¤0', which stand"
has currencies \
    $'{"locale":"qba","standard":"#,##0 \'E\'\'1\' ¤-","accounting":"¤#,##,##0;(¤#,##0)","minus":"-","plus":"+","names":{"other":"{0} {1}"}}'
counts currencies 3
# no groups in amounts, and the same symbols otherwise
has currency_decimals \
    '{"locale":"qbi","minus":["-",""],"plus":["+",""],"decimal":".","group":",","numsys":"latn","sizes":[0,0,1]}'
counts currency_decimals 1
has percents $'{"locale":"qba","pattern":"0%-\'%\'","minus":"-","plus":"+","percent":"%","permille":"‰"}'
counts percents 7

# Compact patterns with negative subpatterns; `0` alone behind others; a symbol's code; none; a sign.
cat >"$folder/odd/main/qbj.xml" <<END
<ldml><numbers><currencyFormats numberSystem="latn"><currencyFormatLength type="short">
    <currencyFormat type="standard">
        <pattern type="1000" count="other">¤ 0 'k.';¤ -0 'k.'</pattern>
        <pattern type="10000" count="other">¤ 00 'k.';¤ -00 'k.'</pattern>
        <pattern type="100000" count="other">0</pattern>
        <pattern type="1000000" count="other">¤¤0M</pattern>
        <pattern type="10000000" count="other">00M</pattern>
        <pattern type="100000000" count="other">-¤000M</pattern>
    </currencyFormat>
</currencyFormatLength></currencyFormats></numbers></ldml>
END
makes compact_money "$folder/odd" qbj --currencies QQA
short='qbj: currencyFormats[latn]/short'
reports "${digits_lines[@]}" \
    "$short/100000: its exponent is below that of the type before it" \
    "$short/1000000-other: '¤¤0M': ¤ stands 2 times in a subpattern of '¤¤0M', not once" \
    "$short/10000000-other: '00M': ¤ stands 0 times in a subpattern of '00M', not once"
has currency_compact \
    $'{"locale":"qbj","patterns":[[3,3,{"other":"¤ 0 \'k.\';¤ -0 \'k.\'"}],[8,6,{"other":"-¤0M"}]]}'
counts currency_compact 1

# Compact patterns of latn for a numbering system that has other patterns of money alone; an `E` outside of a number.
cat >"$folder/odd/main/qbk.xml" <<END
<ldml><numbers>
    <defaultNumberingSystem>deva</defaultNumberingSystem>
    <currencyFormats numberSystem="deva">
        <currencyFormatLength>
            <currencyFormat type="standard"><pattern>#,##0.00 ¤</pattern></currencyFormat>
            <currencyFormat type="accounting"><pattern>#,##0.00 ¤</pattern></currencyFormat>
        </currencyFormatLength>
        <unitPattern count="other">{0} {1}</unitPattern>
    </currencyFormats>
    <currencyFormats numberSystem="latn"><currencyFormatLength type="short">
        <currencyFormat type="standard">
            <pattern type="1000" count="other">0 E ¤</pattern>
            <pattern type="10000" count="other">00 E'x' ¤</pattern>
            <pattern type="100000" count="other">000E ¤</pattern>
        </currencyFormat>
    </currencyFormatLength></currencyFormats>
</numbers></ldml>
END
makes exponents "$folder/odd" qbk --currencies QQA
short='qbk: currencyFormats[latn]/short'
reports "${digits_lines[@]}" \
    "$short/10000-other: \"00 E'x' ¤\": the special character E within a pattern" \
    "$short/100000-other: '000E ¤': the number 000E isn't zeros alone"
has currency_compact $'{"locale":"qbk","patterns":[[3,3,{"other":"0 \'E\' ¤"}]]}'

# Types that repeat the patterns of a later one with another exponent go, each of them, whatever they have for exactly one;
# the type before them serves there.
cat >"$folder/odd/main/qbl.xml" <<END
<ldml><numbers>
    <currencyFormats numberSystem="latn"><currencyFormatLength type="short">
        <currencyFormat type="standard">
            <pattern type="1000" count="other">¤0T</pattern>
            <pattern type="10000" count="other">¤00T</pattern>
            <pattern type="100000" count="1">¤000l</pattern>
            <pattern type="100000" count="other">¤000L</pattern>
            <pattern type="1000000" count="other">¤00L</pattern>
        </currencyFormat>
    </currencyFormatLength></currencyFormats>
    <decimalFormats numberSystem="latn"><decimalFormatLength type="long"><decimalFormat>
        <pattern type="1000" count="other">0a</pattern>
        <pattern type="10000" count="1">a</pattern>
        <pattern type="10000" count="other">00a</pattern>
        <pattern type="100000" count="other">0a</pattern>
    </decimalFormat></decimalFormatLength></decimalFormats>
</numbers></ldml>
END
makes repeats "$folder/odd" qbl --currencies QQA
long='qbl: decimalFormats[latn]/long'
reports "${digits_lines[@]}" \
    "$long/10000: the patterns of the type 100000, with another exponent" \
    "$long/1000: the patterns of the type 100000, with another exponent" \
    "qbl: currencyFormats[latn]/short/100000: the patterns of the type 1000000, with another exponent"
has currency_compact '{"locale":"qbl","patterns":[[3,3,{"other":"¤0T"}],[6,5,{"other":"¤0L"}]]}'
has long '{"locale":"qbl","patterns":[[5,5,{"other":"{0}a"}],[6,6,{"other":"{0}M"}]]}'
pays 'QQA\u00a0123T\nQQA\u00a014L\n' -l qbl --currency QQA --style short 123456 1423126
answers 'qbl - long' '1000\n200000\n' '1000\n2a\n'

# Names: a numbering system without patterns for them has those of latn, as one without patterns of money has; names that
# can't be expressed leave the rest; they go with the default system alone. Compact money in two systems. Percents without
# their sign, empty signs; an empty per mille sign is left out alone.
names_of() {
    cat >"$folder/odd/main/$1.xml" <<END
<ldml><numbers>
    <defaultNumberingSystem>arab</defaultNumberingSystem>
    <symbols numberSystem="arab"><minusSign>${3--}</minusSign><percentSign>${4-%}</percentSign>${6-}</symbols>
    <currencyFormats numberSystem="arab">
        <currencyFormatLength>
            <currencyFormat type="standard"><pattern>¤0</pattern></currencyFormat>
            <currencyFormat type="accounting"><pattern>¤0</pattern></currencyFormat>
        </currencyFormatLength>
        <currencyFormatLength type="short"><currencyFormat type="standard">
            <pattern type="1000" count="other">0x ¤</pattern>
        </currencyFormat></currencyFormatLength>
    </currencyFormats>
    <currencyFormats numberSystem="latn"><unitPattern count="other">$2</unitPattern></currencyFormats>
    <percentFormats numberSystem="arab">
        <percentFormatLength><percentFormat><pattern>${5-0%}</pattern></percentFormat></percentFormatLength>
    </percentFormats>
</numbers></ldml>
END
}
sed -e '/<currencyFormats numberSystem="arab">/,/<\/currencyFormats>/d' -e '/<percentFormats numberSystem="arab">/,/<\/percentFormats>/d' \
    "$release/common/main/root.xml" >"$folder/odd/main/root.xml"
names_of qbm '{1}: {0}'
names_of qbn '{0}'
names_of qbo '{0} {1}' ''
names_of qbp '{0} {1}' - ''
names_of qbq '{0} {1}' - % '0%;(0)'
names_of qbr '{0} {1}' - % '0%' '<perMille></perMille>'
makes names_of "$folder/odd" qbm qbn qbo qbp qbq qbr --currencies QQA --percents
empty='minusSign is empty'
judge 'names that are left out' grep -qxF "qbn: currencyFormats[arab]/unitPattern: {1} stands 0 times in '{0}', not once" "$folder/names_of.err"
judge 'an empty minus in money' grep -qxF "qbo: currencyFormats[arab]: $empty" "$folder/names_of.err"
judge 'an empty minus in percents' grep -qxF "qbo: percentFormats[arab]: $empty" "$folder/names_of.err"
judge 'an empty percent sign' grep -qxF 'qbp: percentFormats[arab]: percentSign is empty' "$folder/names_of.err"
judge 'percents without their sign' grep -qxF \
    "qbq: percentFormats[arab]: % stands 0 times in a subpattern of '0%;(0)', not once" "$folder/names_of.err"
has currencies \
    $'{"locale":"qbm","standard":"¤0","accounting":"¤0","minus":"-","plus":"\u061c+","names":{"other":"{1}: {0}"}}' \
    $'{"locale":"qbm","system":"latn","standard":"¤\u00a0#,##0.00","accounting":"¤\u00a0#,##0.00","minus":"-","plus":"+"}' \
    $'{"locale":"qbn","standard":"¤0","accounting":"¤0","minus":"-","plus":"\u061c+"}' \
    $'{"locale":"qbo","system":"latn","standard":"¤\u00a0#,##0.00","accounting":"¤\u00a0#,##0.00","minus":"-","plus":"+"}'
has currency_compact '{"locale":"qbm","patterns":[[3,3,{"other":"0x ¤"}]]}' \
    '{"locale":"qbm","system":"latn","patterns":[[3,3,{"other":"¤0K"}]]}'
counts currency_compact 12
has percents '{"locale":"qbp","system":"latn","pattern":"#,##0%","minus":"-","plus":"+","percent":"%","permille":"‰"}' \
    $'{"locale":"qbr","pattern":"0%","minus":"-","plus":"\u061c+","percent":"%"}'
judge 'percents in arab' [ "$(grep '^{' "$folder/names_of.percents" | grep -cv '"system"')" = 3 ]

pays 'QQA: ٢٫٠٠\nQQA: -١٢٣٤٥٫٠٠\n' -l qbm --currency QQA --width name 2 -12345
pays 'QQA\u00a02.00\n' -l qbm --system latn --currency QQA 2
pays '١٫٥x QQA\n' -l qbm --currency QQA --style short 1500
pays 'QQA\u00a01.5K\n-QQA\u00a01.5K\n' -l qbm --system latn --currency QQA --style short 1500 -1500
pays 'QQA\u00a0٢\n' -l qbn --currency QQA --fraction 0 2
timeout 20 "$locnum" -t "$folder/names_of.json" -l qbn --currency QQA --width name 2 >"$folder/out" 2>"$folder/err"
judge 'names that are left out have no data' [ $? = 1 ]

# Drafts are reported of what tables have: nothing of a currency that isn't asked for.
cat >"$folder/odd/main/qbr.xml" <<END
<ldml><numbers><currencies>
    <currency type="QQA"><symbol draft="provisional">X</symbol></currency>
    <currency type="QQB"><symbol draft="unconfirmed">Y</symbol></currency>
</currencies></numbers></ldml>
END
makes drafts "$folder/odd" qbr --currencies QQB
reports "${digits_lines[@]}" \
    'qbr: currencies/currency[QQB]/symbol: a draft, unconfirmed: what is inherited stands'
has currency_symbols '{"locale":"qbr","symbols":[["QQB","B$","$",{"other":"QQB"}]]}'

# Further numbering systems: what root has for them, what the locale itself has, and nothing where all is the default one's.
makes systems "$release" qaa qab --systems arab,beng,deva --currencies QQA --percents
has symbols \
    $'{"locale":"qaa","system":"arab","minus":["\u061c-",""],"plus":["\u061c+",""],"decimal":"٫","group":"٬","numsys":"arab","sizes":[3,2,2]}' \
    '{"locale":"qaa","system":"beng","minus":["−",""],"plus":["+",""],"decimal":",","group":".","numsys":"beng","sizes":[3,2,2]}'
judge 'as the default one' [ "$(grep -c '"system":"deva"' "$folder/systems.json")" = 0 ]
has currency_decimals \
    $'{"locale":"qaa","system":"arab","minus":["\u061c-",""],"plus":["\u061c+",""],"decimal":"٫","group":"٬","numsys":"arab","sizes":[3,3,2]}'
has currencies $'{"locale":"qaa","system":"arab","standard":"#,##0.00\u00a0¤","accounting":"#,##0.00\u00a0¤;(#,##0.00\u00a0¤)","minus":"\u061c-","plus":"\u061c+"}'
has percents $'{"locale":"qaa","system":"arab","pattern":"%#,##0;(%#,##0-)","minus":"\u061c-","plus":"\u061c+","percent":"٪\u061c","permille":"؉"}'
answers 'qaa arab plain' '-12345.5\n' '\u061c-١٢٬٣٤٥٫٥\n'
answers 'qaa deva plain' '-12345.5\n' '−१२.३४५,५\n'
pays '\u061c-١٢٬٣٤٥٫٥٠\u00a0A\n' -l qaa --system arab --currency QQA -12345.5
pays '٪\u061c٥٠\n' -l qaa --system arab --percent 0.5
makes all_systems "$release" qaa qab --systems all --currencies QQA --percents
judge 'all systems' cmp "$folder/all_systems.json" "$folder/systems.json"
makes usual_systems "$release" qaa qab --currencies QQA --percents
judge 'systems by the option alone' [ "$(grep -c '"locale":"qaa","system":"arab"' "$folder/usual_systems.json")" = 0 ]

# Nothing of it without its options.
makes none "$release" --names none --currencies none --units none
judge 'none is the default' cmp "$folder/none.json" "$folder/modern.json"

# Steps of cash: in the last digit of cash, which is that of other amounts unless there are digits of cash; a step of 0 or
# 1 is no step; the steps that tables don't have; a rounding of all amounts.
cp -r "$release/common" "$folder/steps"

# step_of CODE ATTRIBUTE..: a currency with these attributes beside its code
step_of() {
    sed -i "/<\/fractions>/i <info iso4217=\"$1\" ${*:2}/>" "$folder/steps/supplemental/supplementalData.xml"
}
step_of QRA 'digits="2" rounding="0" cashRounding="5"'
step_of QRB 'digits="2" rounding="0" cashDigits="2" cashRounding="50"'
step_of QRC 'digits="2" rounding="0" cashDigits="0" cashRounding="250"'
step_of QRD 'digits="2" rounding="0" cashRounding="0"'
step_of QRE 'digits="2" rounding="0" cashDigits="1" cashRounding="1"'
step_of QRF 'digits="2" rounding="0" cashRounding="3"'
step_of QRG 'digits="2" rounding="0" cashRounding="125"'
step_of QRH 'digits="2" rounding="0" cashRounding="500"'
step_of QRI 'digits="2" rounding="5" cashRounding="10"'
step_of QRJ 'digits="2" rounding="5"'
step_of QRK 'digits="16" rounding="5" cashRounding="15"'
alone='amounts are rounded to digits alone'
makes steps "$folder/steps" root --currencies QQC,QRA,QRB,QRC,QRD,QRE,QRF,QRG,QRH,QRI,QRJ,QRK
reports "${digits_lines[@]}" \
    "root: currency QRF: cashRounding by 3: $alone" \
    "root: currency QRG: cashRounding by 125: $alone" \
    "root: currency QRH: cashRounding by 500: $alone" \
    "root: currency QRI: rounding by 5: $alone" \
    "root: currency QRJ: rounding by 5: $alone" \
    "root: currency QRK: rounding by 5: $alone" \
    "root: currency QRK: cashRounding by 15: $alone" \
    'root: currency QRK: more than 15 digits'
has currency_digits '["DEFAULT",2,2]' '["QQC",3,1,5]' '["QRA",2,2,5]' '["QRB",2,2,50]' '["QRC",2,0,250]' '["QRD",2,2]' \
    '["QRE",2,1]' '["QRF",2,2]' '["QRG",2,2]' '["QRH",2,2]' '["QRI",2,2,10]' '["QRJ",2,2]'
counts currency_digits 12

# The JSON packages.
makes json_money "$release/json" qaa --currencies QQA,QQB --percents --units all
reports "qaa: currencyFormats[latn]/$named '#,##0.00 ¤', which stand" "qaa: percentFormats[latn]/$percents: '#,##0 %': $groups"
has currencies \
    '{"locale":"qaa","standard":"#,##0.00 ¤","accounting":"#,##0.00 ¤;(#,##0.00 ¤)","minus":"−","plus":"+","names":{"one":"{1} {0}","other":"{0} {1}"}}' \
    '{"locale":"qaa","system":"arab","standard":"¤ #,##0.00","accounting":"¤ #,##0.00","minus":"-","plus":"+"}'
has currency_decimals \
    '{"locale":"qaa","minus":["−",""],"plus":["+",""],"decimal":"·","group":".","numsys":"latn","sizes":[3,3,2]}'
counts currency_decimals 1
has currency_symbols '{"locale":"qaa","symbols":[["QQA","A","a",{"one":"one alpha","other":"alphas"}],["QQB","B$","B$",{"other":"beta"}]]}'
has currency_compact '{"locale":"qaa","patterns":[[4,4,{"one":"0 wan ¤","other":"0 wans ¤"}]]}'
has currency_digits '["DEFAULT",2,2]' '["QQB",0,0]'
counts currency_digits 2
has percents '{"locale":"qaa","pattern":"#,##0 %","minus":"−","plus":"+","percent":"%","permille":"‰"}' \
    '{"locale":"qaa","system":"arab","pattern":"#,##0 %","minus":"-","plus":"+","percent":"٪","permille":"؉"}'
has units '{"locale":"qaa","width":"long","unit":"kilometer","patterns":{"one":"{0} kilo","other":"{0} kilos"}}' \
    '{"locale":"qaa","width":"narrow","unit":"kilometer","patterns":{"other":"{0}km"}}'
counts units 3

makes json_steps "$release/json" qaa --currencies QQC
has currency_digits '["DEFAULT",2,2]' '["QQC",3,1,5]'
counts currency_digits 2

# Arguments.
ends 2 "$release" --currencies eur
ends 2 "$release" --currencies EUR,
ends 2 "$release" --currencies
ends 2 "$release" --which qaa --units day
ends 2 "$release" --which qaa --systems arab

# lacks LINE WORD..: status 2, and this line is the last one on standard error.
lacks() {
    local line=$1
    shift
    ends 2 "$release" qaa "$@"
    judge "$*" diff <(echo "cldr_to_tables.py: error: $line") <(tail -n 1 "$folder/err")
}
lacks '--currencies: QQX: not in the release; the nearest: QQD, QQC, QQB, QQA' --currencies QQA,QQX,ZZZ
lacks '--currencies: ZZZ: not in the release; none is near' --currencies ZZZ
lacks '--units: kilometre: not in the release; the nearest: kilometer, length-kilometer' --units day,kilometre
lacks '--systems: arb: not in the release; the nearest: arab' --systems arb
lacks '--systems: roman: not in the release; none is near' --systems roman
lacks '--systems: six: not in the release; none is near' --systems six
ends 3 "$release/json" qad --units all
