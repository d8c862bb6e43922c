# Completion of locnum for fish: to be put into ~/.config/fish/completions. tools/option_pages.py makes it.

# what the file of tables that the words name holds, or else the program
function __locnum_list
    set -l words (commandline -opc)
    set -l file
    for place in (seq (count $words))
        switch $words[$place]
            case -t --tables
                set file -t $words[(math $place + 1)]
            case '--tables=*'
                set file -t (string replace -- --tables= '' $words[$place])
        end
    end
    locnum --list $argv[1] $file 2>/dev/null
end

complete -c locnum -f
complete -c locnum -s t -l tables -r -F -d 'tables of locales, or a folder of tables; else English'
complete -c locnum -s l -l locale -x -a '(__locnum_list locales)' -d 'such as de or pt-BR; env: that of the environment'
complete -c locnum -l system -x -a '(__locnum_list systems)' -d 'the numbering system, such as latn'
complete -c locnum -l list -x -a 'locales systems currencies units' -d 'print the locales, systems, currencies or units'
complete -c locnum -l style -x -a 'plain short long' -d 'plain, short or long; amounts plain or short'
complete -c locnum -l currency -x -a '(__locnum_list currencies)' -d 'amounts of a currency, such as EUR'
complete -c locnum -l accounting -d 'amounts as in accounts, as ($1.00)'
complete -c locnum -l cash -d 'amounts as in cash, 1.13 francs as CHF 1.15'
complete -c locnum -l unit -x -a '(__locnum_list units)' -d 'a unit of the tables, such as kilometer'
complete -c locnum -l width -x -a 'short narrow code hidden name long' -d 'short, narrow, code, hidden, name or long'
complete -c locnum -l percent -d 'numbers as percents, 0.5 as 50%'
complete -c locnum -l permille -d 'numbers as permilles, 0.5 as 500‰'
complete -c locnum -l fraction -x -d 'how many fraction digits'
complete -c locnum -l significant -x -d 'how many significant digits'
complete -c locnum -l increment -x -d 'multiples of N, such as 0.05 or 1000'
complete -c locnum -l integer -x -d 'N digits before the fraction at least'
complete -c locnum -l scale -x -d 'multiplies by a power of ten: 100 or 0.01'
complete -c locnum -l round -x -a 'half-even half-up half-down half-ceiling half-floor up down ceiling floor' -d 'half-even or (half-)up, down, ceiling, floor'
complete -c locnum -l grouping -d 'auto, never, always or min2; auto without WHEN'
complete -c locnum -l sign -x -a 'auto always never except-zero negative' -d 'auto, always, never, except-zero or negative'
complete -c locnum -l skeleton -x -d 'a number skeleton instead, as \'K currency/EUR\''
complete -c locnum -l message -x -d 'a message for each number n, as \'{n, plural, other{#}}\''
complete -c locnum -l messages -r -F -d 'a catalogue of messages (JSON)'
complete -c locnum -l id -x -d 'the message of the catalogue'
complete -c locnum -s d -l delimiter -x -d 'the byte between fields, instead of blanks'
complete -c locnum -l csv -d 'records of CSV, with commas unless -d says another byte'
complete -c locnum -l field -x -d 'the numbers: 2, 2-4, 1,3- or -, or names of --header'
complete -c locnum -l range -x -d 'ranges from field N to field M, in place of field N'
complete -c locnum -l header -d 'N lines in front go through, 1 without N'
complete -c locnum -s z -l zero-terminated -d 'lines end in NUL instead of a line feed'
complete -c locnum -l padding -x -d 'N columns at least, behind spaces; -N: before them'
complete -c locnum -l invalid -x -a 'abort fail warn ignore' -d 'texts that are no numbers: abort, fail, warn or ignore'
complete -c locnum -l explain -d 'each number with its parts, and why it is written so'
complete -c locnum -s h -l help -d 'this text'
complete -c locnum -s V -l version -d 'the version'
