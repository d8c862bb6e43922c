#!/bin/bash
# Every sample of every cardinal rule set of a CLDR release gets its category from icu_plurals. A program that asks the
# crate is written to a folder of its own, beside copies of the crates that it stands on, and is proved and built there.
# Where there is no release the script says so, and counts as skipped. It isn't part of CI.
# usage: tests/plural_samples.sh [RELEASE], by default the one that Debian's unicode-cldr-core installs
source "$(dirname "$0")/usage.sh"
takes 1 -- "$@"
source "$(dirname "$0")/judging.sh"
release=${1:-/usr/share/unicode/cldr}
here=$(cd "$(dirname "$0")" && pwd)
folder=$(mktemp -d)
trap 'rm -rf "$folder"' EXIT

[ -e "$release" ] || skipped_all "no CLDR release at $release"
release=$(realpath "$release")

# copy CRATE: its sources and what is built of it
copy() {
    mkdir -p "$folder/crates/$1"
    tar -C "$here/../crates/$1" -c --exclude=out/incremental --exclude=must-fail . | tar -x -C "$folder/crates/$1"
    grep -E "^$1:" "$here/../crates.txt" >>"$folder/crates.txt"
}

for crate in icu_provider fixed_decimal icu_plurals_conditions icu_plurals; do copy "$crate"; done
echo 'samples: fixed_decimal icu_plurals' >>"$folder/crates.txt"
cp "$here/../HANDLES" "$folder"
mkdir -p "$folder/crates/samples/src"
cat >"$folder/crates/samples/src/main.rt" <<'END'
//! Answers each line of a significand, an exponent and rules, with tabs between, by the category of the number.
#![tactic(auto)]

use fixed_decimal::Decimal;
use icu_plurals::{PluralCategory, PluralOperands, PluralRules};
use std::alloc::{AllocError, Global};
use std::io;

/// The category of a name.
fn category_of(name: &str) -> PluralCategory {
    match name {
        "zero" => PluralCategory::Zero,
        "one" => PluralCategory::One,
        "two" => PluralCategory::Two,
        "few" => PluralCategory::Few,
        "many" => PluralCategory::Many,
        _ => PluralCategory::Other,
    }
}

/// The name of a category.
fn name_of(category: PluralCategory) -> &'static str {
    match category {
        PluralCategory::Zero => "zero",
        PluralCategory::One => "one",
        PluralCategory::Two => "two",
        PluralCategory::Few => "few",
        PluralCategory::Many => "many",
        PluralCategory::Other => "other",
    }
}

/// The category of a number by rules of the form `CATEGORY:CONDITION`.
fn category_by(
    alloc: Global,
    number: &str,
    exponent: u8,
    texts: &str,
) -> Result<&'static str, AllocError> {
    let Ok(decimal) = Decimal::try_from_str(alloc, number) else {
        return Ok("no number");
    };
    let mut rules = Vec::new(alloc);
    for text in texts.split('\t') {
        if let Some((category, condition)) = text.split_once(':') {
            rules.push((category_of(category), condition))?;
        }
    }
    let Ok(rules) = PluralRules::from_rules(alloc, rules.as_slice()) else {
        return Ok("no rules");
    };
    let operands = PluralOperands::from_significand_and_exponent(&decimal.absolute, exponent);
    Ok(name_of(rules.category_for(operands)))
}

/// The answer to a line.
fn answer(alloc: Global, line: &str) -> Result<&'static str, AllocError> {
    let Some((number, rest)) = line.split_once('\t') else {
        return Ok("no exponent");
    };
    let Some((exponent, texts)) = rest.split_once('\t') else {
        return Ok("no rules");
    };
    match exponent.parse::<u8>() {
        Ok(exponent) => category_by(alloc, number, exponent, texts),
        Err(_) => Ok("no exponent"),
    }
}

fn main(rt: HostRuntime) -> io::Result<()> {
    for line in rt.lines(rt.alloc()) {
        let text = answer(rt.alloc(), line?.as_str())?;
        println!(rt; "{text}")?;
    }
    Ok(())
}
END
(cd "$folder/crates/samples" && rt run </dev/null) >"$folder/log" 2>&1 || { cat "$folder/log"; failed_all 'the program is built'; }
python3 "$here/plural_samples.py" "$release" "$folder/crates/samples/out/samples"
