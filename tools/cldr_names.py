"""What a name of a locale means by a CLDR release, and which names get entries of their own in decfmt's tables.

cldr_to_tables.py reads the release; here nothing is read. Names and locales are written as CLDR's files: zh_Hant_TW.
"""
from __future__ import annotations

import collections
import difflib
import re
from typing import Collection, Iterable, NamedTuple, Tuple

MODIFIERS = {"latin": "Latn", "cyrillic": "Cyrl", "devanagari": "Deva"}
UNKNOWN = ("Zzzz", "ZZ")
MOST_REPLACED = 8
MOST_NEAR = 5

# Language, script and region.
Triple = Tuple[str, str, str]


class Facts(NamedTuple):
    """What a release says of names: `likely` subtags; aliases of `languages`, `scripts` and `regions`; the `parents` that
    are named; `spoken`, pairs of a language, perhaps with a script, and a region."""

    likely: dict[str, str]
    languages: dict[str, str]
    scripts: dict[str, str]
    regions: dict[str, str]
    parents: dict[str, str]
    spoken: set[tuple[str, str]]


class Asked(NamedTuple):
    """A name without what isn't part of it, the numbering system it asks for, and whether it is a plain tag."""

    name: str
    system: str | None
    is_tag: bool


class Fields(NamedTuple):
    """The subtags of a name; those that it hasn't are empty."""

    language: str
    script: str
    region: str
    variants: tuple[str, ...]


def fields_of(name: str) -> Fields:
    """The subtags of a name by their kind, in their usual letters (UTS 35 Part 1, Unicode Locale Identifier). What
    follows a single letter isn't read."""
    language, *rest = re.split("[-_]", name)
    script = region = ""
    variants: list[str] = []
    for word in rest:
        if len(word) == 1:
            break
        if re.fullmatch("[A-Za-z]{4}", word) and not (script or region or variants):
            script = word.title()
        elif re.fullmatch("[A-Za-z]{2}|[0-9]{3}", word) and not (region or variants):
            region = word.upper()
        else:
            variants.append(word.upper())
    return Fields(language.lower(), script, region, tuple(variants))


def joined(*words: str) -> str:
    """Subtags as a name; those that are empty are left out."""
    return "_".join(word for word in words if word)


def in_usual_letters(name: str) -> str:
    """A name with its subtags in their usual letters."""
    fields = fields_of(name)
    return joined(*fields[:3], *fields.variants)


def asked(text: str) -> Asked:
    """A name as systems write it: with an encoding, a modifier, or an extension that asks for a numbering system
    (UTS 35 Part 1, Unicode Locale Extension)."""
    name, _, modifier = re.sub(r"\.[^@]*", "", text).partition("@")
    if name in ("C", "POSIX"):
        return Asked("en_US_POSIX", None, False)
    tag, *rest = re.split("[-_]u[-_]", name, maxsplit=1, flags=re.I)
    extension = "-".join(rest).replace("_", "-").lower()
    fields = fields_of(tag)
    script = fields.script or MODIFIERS.get(modifier, "")
    variants = fields.variants
    if extension.endswith("va-posix"):
        variants += ("POSIX",)
    elif modifier and modifier not in MODIFIERS:
        variants += (modifier.upper(),)
    system = re.search("(?:^|-)nu-([a-z0-9]{3,8})", extension)
    name = joined(fields.language, script, fields.region, *variants)
    is_tag = re.fullmatch("[A-Za-z0-9]+([-_][A-Za-z0-9]+)*", text) is not None and not system
    return Asked(name, system[1] if system else None, is_tag)


class Names:
    """The names of a release's locales, by what the release says of languages, scripts and regions."""

    def __init__(self, locales: Iterable[str], facts: Facts) -> None:
        self.facts = facts
        self.own = {locale.lower(): locale for locale in locales}
        self.aliases = {name.lower(): replacement for name, replacement in facts.languages.items()}
        self.by_likely: dict[Triple, str] = {}
        for locale in sorted(locales, key=lambda name: name.count("_")):
            fields = fields_of(locale)
            full = self.maximized(fields)
            if full and not fields.variants:
                self.by_likely[full] = locale

    def canonical(self, name: str) -> Fields:
        """The fields of a name with aliases replaced: of the language, by the longest beginning that is an alias, then
        of the script and the region. The name's own script and region stand before those of a replacement (UTS 35
        Part 1, LocaleId Canonicalization)."""
        for _ in range(MOST_REPLACED):
            replaced = self.with_language_replaced(name)
            if replaced == name:
                break
            name = replaced
        fields = fields_of(name)
        script = self.facts.scripts.get(fields.script, fields.script)
        return self.with_region_replaced(fields._replace(script=script))

    def with_language_replaced(self, name: str) -> str:
        """The name with the longest beginning replaced that is an alias."""
        words = name.replace("-", "_").split("_")
        for length in range(len(words), 0, -1):
            replacement = self.aliases.get("_".join(words[:length]).lower())
            if replacement:
                new = fields_of(replacement)
                kept = fields_of("_".join(["und", *words[length:]]))
                script, region = kept.script or new.script, kept.region or new.region
                return joined(new.language, script, region, *new.variants, *kept.variants)
        return name

    def with_region_replaced(self, fields: Fields) -> Fields:
        """The fields with the region's replacement: of several the likely one of the language and script, else the
        first (UTS 35 Part 1, Territory Aliases)."""
        regions = self.facts.regions.get(fields.region, fields.region).split(" ")
        likely = self.maximized(fields._replace(region="")) if len(regions) > 1 else None
        chosen = likely[2] if likely and likely[2] in regions else regions[0]
        return fields._replace(region=chosen)

    def maximized(self, fields: Fields) -> Triple | None:
        """Language, script and region of canonical fields, with the likely ones for those that are missing; None where
        the release knows none (UTS 35 Part 1, Likely Subtags)."""
        language, script, region = ("" if word in UNKNOWN else word for word in fields[:3])
        if language != "und" and script and region:
            return language, script, region
        for words in ((language, script, region), (language, region), (language, script), (language,)):
            likely = self.facts.likely.get("_".join(words))
            if likely:
                likely_language, likely_script, likely_region = likely.split("_")
                found = likely_language if language == "und" else language
                return found, script or likely_script, region or likely_region
        return None

    def meant(self, name: str) -> str | None:
        """The locale of the release that a name means, or None."""
        return self.found(name)[0]

    def ruled(self, name: str) -> str | None:
        """The locale whose plural rules a name has."""
        return self.found(name)[1]

    def found(self, name: str) -> tuple[str | None, str | None]:
        """The locale that a name means, and that whose plural rules it has.

        One that the release has by this name, or by the canonical one, stands. Else it is the locale with the same
        language, script and region after likely subtags are added; else, for a region without a locale, the parent that
        the release names, or the language in that script. A script that the release doesn't have for a language has no
        locale: its parent is root. Plural rules have no such parents: they are those of the name less subtags (UTS 35
        Part 1, Likely Subtags; Parent Locales).
        """
        if name.lower() == "und":
            return "root", "root"
        fields = self.canonical(name)
        for exact in (in_usual_letters(name), joined(*fields[:3], *fields.variants), joined(*fields[:3])):
            if exact.lower() in self.own:
                return (self.own[exact.lower()],) * 2
        full = self.maximized(fields)
        if full is None:
            return (None if fields.script else self.own.get(fields.language),) * 2
        if full in self.by_likely:
            return (self.by_likely[full],) * 2
        for form in (joined(*full), joined(full[0], full[2])):
            if form in self.facts.parents and self.maximized(fields_of(form)) == full:
                parent = self.facts.parents[form]
                return None if parent == "root" else self.own.get(parent.lower()), form
        return (self.of_script(*full[:2]),) * 2

    def of_script(self, language: str, script: str) -> str | None:
        """The locale of a language in a script, or None."""
        scripted = self.own.get(joined(language, script).lower())
        likely = self.maximized(Fields(language, "", "", ()))
        return scripted or (self.own.get(language) if likely and likely[1] == script else None)

    def likely_script(self, language: str, region: str) -> str:
        """The script in which a language is likely written in a region, or nothing."""
        full = self.maximized(Fields(language, "", region, ()))
        return full[1] if full else ""

    def pairs(self) -> set[Triple]:
        """All languages with a region, by the regions of likely subtags, of the release's locales and of the data on
        territories: language, script and region."""
        found = set()
        written = [*self.own.values(), *self.facts.likely, *self.facts.likely.values()]
        for fields in map(fields_of, written):
            if fields.region and not fields.variants:
                found.add((fields.language, fields.script, fields.region))
        for language, region in self.facts.spoken:
            fields = fields_of(language)
            found.add((fields.language, fields.script, region))
        return found

    def in_scripts(self, chosen: Iterable[str]) -> dict[str, set[str]]:
        """The languages that the chosen locales write in more than one script, with these."""
        found: collections.defaultdict[str, set[str]] = collections.defaultdict(set)
        for fields in map(fields_of, chosen):
            full = self.maximized(fields)
            if full:
                found[full[0]].add(full[1])
        return {language: scripts for language, scripts in found.items() if len(scripts) > 1}

    def added(self, chosen: Collection[str], with_all: bool = False) -> dict[str, str]:
        """The names that get entries in tables of the chosen locales, each with the locale that it means.

        The usual ones:

        1. a language with a region, for each region that likely subtags, a locale or the data on territories name with
           that language: zh_TW, de_IT, no_NO;
        2. where the chosen locales write a language in more than one script, the language with each of these, alone and
           with each of its regions: hi_Deva, sr_Latn_RU, zh_Hans_US;
        3. each alias of a language alone: iw, tl, cmn, deu, no_nyn; one of two letters also with the regions of its
           language: iw_IL, sh_BA;
        4. a language with an old code of two letters of a region for which the release has a locale of it: en_UK.

        With all also scripts where there is no other one (de_Latn_AT), and each alias with the regions of its language
        (cmn_CN, deu_AT).

        A name that a locale of the release has isn't added: it stands for this locale alone, chosen or not. Nor is one
        that means a locale that isn't chosen, or none, nor one without a language (und_TW), though likely subtags have
        it.
        """
        chosen = set(chosen)
        forms = self.by_region(self.in_scripts(chosen), with_all) | self.by_alias(with_all) | self.by_old_region()
        found = {}
        for name in sorted(forms):
            locale = self.meant(name)
            if name.lower() not in self.own and locale is not None and locale in chosen and not name.startswith("und"):
                found[name] = locale
        return found

    def by_region(self, in_scripts: dict[str, set[str]], with_all: bool) -> set[str]:
        """Languages with regions, with scripts if they are written in several, and with both."""
        forms = set()
        for language, script, region in self.pairs():
            scripts = in_scripts.get(language, set())
            if with_all:
                scripts = scripts.union((script, self.likely_script(language, region))) - {""}
            forms.add(joined(language, region))
            forms.update(joined(language, script) for script in scripts)
            forms.update(joined(language, script, region) for script in scripts)
        return forms

    def by_alias(self, with_all: bool) -> set[str]:
        """Aliases of languages, alone and with the regions of the language that they mean."""
        regions: collections.defaultdict[str, set[str]] = collections.defaultdict(set)
        for language, _, region in self.pairs():
            regions[language].add(region)
        forms = set()
        for alias in self.facts.languages:
            language = self.canonical(alias).language
            forms.add(alias)
            if "_" not in alias and (with_all or len(alias) == 2):
                forms.update(joined(alias, region) for region in regions[language])
        return forms

    def by_old_region(self) -> set[str]:
        """Languages with the old code of a region, where the release has a locale for the language in the new one."""
        forms: set[str] = set()
        regions: collections.defaultdict[str, set[str]] = collections.defaultdict(set)
        for locale in self.own.values():
            regions[fields_of(locale).region].add(fields_of(locale).language)
        for old, replacements in self.facts.regions.items():
            if re.fullmatch("[A-Z]{2}", old):
                for new in replacements.split(" "):
                    forms.update(joined(language, old) for language in regions[new])
        return forms

    def near(self, name: str) -> list[str]:
        """The locales nearest to a name that means none: those of its language, else those spelled alike."""
        fields = self.canonical(name)
        same = [own for own in self.own.values() if fields_of(own).language == fields.language]
        if same:
            wanted = {fields.script, fields.region} - {""}
            same.sort(key=lambda own: (-len(wanted.intersection(own.split("_"))), own.count("_"), own))
            return same[:MOST_NEAR]
        alike = difflib.get_close_matches(name.lower().replace("-", "_"), list(self.own), MOST_NEAR)
        return [self.own[found] for found in alike]
