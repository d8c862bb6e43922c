"""Reads a release as LDML XML, the form of core.zip."""
from __future__ import annotations

import functools
import re
from typing import Iterator, Sequence
from xml.etree import ElementTree

import cldr_names
from cldr_paths import ElementPath, step
from cldr_release import STYLES, Folder, LocaleRanges, LocaleRules, Release, Scope, Tree, below, truncated
from cldr_reports import Reports

UNCERTAIN = ("unconfirmed", "provisional")
INHERIT = "↑↑↑"


def collect(element: ElementTree.Element, above: ElementPath, tree: Tree, symbols: set[str]) -> None:
    """Puts an element and those in it into the tree. Of symbols those that are named are taken, and of forms for
    grammatical cases none."""
    path = above + (step(element.tag, element.attrib),)
    alias = element.find("alias")
    if above and above[0].tag == "symbols" and element.tag not in symbols or "case" in element.attrib:
        return
    draft = element.get("draft", "")
    if alias is not None:
        tree.aliases[path] = (alias.get("source", "locale"), alias.get("path", "."))
    elif len(element):
        for child in element:
            collect(child, path, tree, symbols)
    elif draft in UNCERTAIN:
        tree.drafts[path] = draft
    elif element.text != INHERIT:
        tree.values[path] = element.text or ""


class LdmlRelease(Release):
    """The form of core.zip: LDML XML in the folders main, supplemental and properties."""

    @staticmethod
    def is_at(folder: Folder) -> bool:
        """Tells whether such a release is in this folder."""
        return (folder / "main" / "root.xml").exists()

    def __init__(self, folder: Folder, reports: Reports, scopes: Sequence[Scope] = ()) -> None:
        super().__init__(folder, reports, scopes)
        self.locales = sorted(file.name[:-4] for file in (folder / "main").iterdir() if file.name.endswith(".xml"))
        self.parents = {**self.parents_by_script(), **self.read_parents("")}
        self.plural_parents = self.read_parents("plurals")
        self.cardinals = self.read_rules("plurals.xml", "cardinal")

    def parse(self, *names: str) -> ElementTree.Element:
        """The root element of a file of the release."""
        return ElementTree.fromstring(below(self.folder, *names).read_bytes())

    def read_tree(self, locale: str) -> Tree:
        """Reads a locale's file; drafts below `contributed` aren't taken (UTS 35 Part 1, Attribute draft)."""
        tree = Tree({}, {}, {})
        root = self.parse("main", f"{locale}.xml")
        for element in (*root.iterfind("numbers/*"), *root.iterfind("units/*")):
            if element.tag in self.scope.elements:
                collect(element, (), tree, self.scope.symbols)
        return tree

    def parent_entries(self, component: str) -> Iterator[ElementTree.Element]:
        """The entries of the parents for a component's data, or with an empty name for all other data."""
        for group in self.parse("supplemental", "supplementalData.xml").findall("parentLocales"):
            if component in group.get("component", "").split(" "):
                yield from group.findall("parentLocale")

    def read_parents(self, component: str) -> dict[str, str]:
        """The parents that are named, as they aren't found by taking off a subtag (UTS 35 Part 1, Parent Locales)."""
        parents = {}
        for entry in self.parent_entries(component):
            parents.update(dict.fromkeys(entry.attrib["locales"].split(), entry.attrib["parent"]))
        return parents

    def parents_by_script(self) -> dict[str, str]:
        """The parent of a language with a script that isn't its likely one, by the rule `nonlikelyScript` (UTS 35
        Part 1, Parent Locales)."""
        rules = {entry.get("localeRules"): entry.get("parent") for entry in self.parent_entries("")}
        parent = rules.get("nonlikelyScript")
        if parent is None:
            return {}
        likely = {}
        for entry in self.parse("supplemental", "likelySubtags.xml").iter("likelySubtag"):
            likely[entry.attrib["from"]] = entry.attrib["to"].split("_")[1]
        scripted = [locale.split("_") for locale in self.locales if re.fullmatch("[a-z]+_[A-Z][a-z]{3}", locale)]
        return {"_".join(words): parent for words in scripted if likely.get(words[0], words[1]) != words[1]}

    def read_rules(self, name: str, kind: str) -> LocaleRules:
        """The plural rules of a kind of each locale that is named with some, in a file of the release."""
        named = {}
        for plurals in self.parse("supplemental", name).findall("plurals"):
            if plurals.get("type", kind) == kind:
                for rules in plurals.findall("pluralRules"):
                    pairs = [(rule.attrib["count"], rule.text or "") for rule in rules.findall("pluralRule")]
                    named.update(dict.fromkeys(rules.attrib["locales"].split(), pairs))
        return named

    def read_ordinals(self) -> LocaleRules:
        """The ordinal rules of each locale that is named with some."""
        return self.read_rules("ordinals.xml", "ordinal")

    def read_ranges(self) -> LocaleRanges:
        """The plural categories of ranges of each locale that is named with some (UTS 35 Part 3, Plural Ranges)."""
        named: LocaleRanges = {}
        for ranges in self.parse("supplemental", "pluralRanges.xml").iterfind("plurals/pluralRanges"):
            found = [(it.attrib["start"], it.attrib["end"], it.attrib["result"]) for it in ranges.findall("pluralRange")]
            named.update(dict.fromkeys(ranges.attrib["locales"].split(), found))
        return named

    @functools.lru_cache(maxsize=None)
    def chain(self, locale: str) -> tuple[str, ...]:
        """The locale, its parent, and so on to root; those of them that the release has."""
        if locale == "root":
            return ("root",)
        above = self.chain(self.parents.get(locale, truncated(locale)))
        return (locale,) + above if locale in self.locales else above

    def digits(self) -> dict[str, str]:
        """The ten digits of each numeric numbering system (UTS 35 Part 3, Numbering Systems)."""
        systems = self.parse("supplemental", "numberingSystems.xml").iter("numberingSystem")
        return {system.attrib["id"]: system.attrib["digits"] for system in systems if system.get("type") == "numeric"}

    def fractions(self) -> dict[str, dict[str, str]]:
        """What is said of the fraction digits of each currency (UTS 35 Part 3, Supplemental Currency Data)."""
        entries = self.parse("supplemental", "supplementalData.xml").iterfind("currencyData/fractions/info")
        return {entry.attrib["iso4217"]: dict(entry.attrib) for entry in entries}

    def dated_currencies(self) -> set[str]:
        """The codes of all currencies that were or are in use somewhere (UTS 35 Part 3, Supplemental Currency Data)."""
        entries = self.parse("supplemental", "supplementalData.xml").iterfind("currencyData/region/currency")
        return {entry.attrib["iso4217"] for entry in entries}

    @functools.cached_property
    def levels(self) -> dict[str, str]:
        """The levels of coverage that are listed."""
        levels = {}
        for line in below(self.folder, "properties", "coverageLevels.txt").read_bytes().decode().splitlines():
            fields = [field.strip() for field in line.split("#")[0].split(";")]
            if len(fields) > 1:
                levels[fields[0]] = fields[1]
        return levels

    def level(self, locale: str) -> str | None:
        """The level of coverage of a locale; one without a level has that of another locale."""
        while locale not in self.levels and locale != "root":
            locale = self.measured_by(locale)
        return self.levels.get(locale)

    def measured_by(self, locale: str) -> str:
        """The locale whose level a locale has that isn't listed: that without its last subtag. A language alone has the
        level of the parent that is named for it if its file is empty, as that of `nb` is, whose parent is `no`. A
        script that isn't likely has that of the language if its file has compact patterns, as that of `sr_Latn` has."""
        parent = self.parents.get(locale)
        if parent == "root":
            return truncated(locale) if self.has_patterns(locale) else "root"
        return parent if parent and "_" not in locale and self.is_empty(locale) else truncated(locale)

    def is_empty(self, locale: str) -> bool:
        """Tells whether a locale's file has nothing but its name."""
        return all(element.tag == "identity" for element in self.parse("main", f"{locale}.xml"))

    def has_patterns(self, locale: str) -> bool:
        """Tells whether a locale's own file has compact patterns of both styles."""
        lengths = self.parse("main", f"{locale}.xml").iterfind("numbers/decimalFormats/decimalFormatLength")
        found = {length.get("type") for length in lengths if length.find("decimalFormat/pattern") is not None}
        return found.issuperset(STYLES)

    def facts(self) -> cldr_names.Facts:
        """What the release says of names (UTS 35 Part 1, Likely Subtags, and its data on territories and aliases)."""
        subtags = self.parse("supplemental", "likelySubtags.xml").iter("likelySubtag")
        metadata = self.parse("supplemental", "supplementalMetadata.xml")
        languages, scripts, regions = (
            {alias.attrib["type"]: alias.attrib["replacement"] for alias in metadata.iter(f"{kind}Alias")}
            for kind in ("language", "script", "territory")
        )
        likely = {entry.attrib["from"]: entry.attrib["to"] for entry in subtags}
        return cldr_names.Facts(likely, languages, scripts, regions, self.parents, self.spoken())

    def spoken(self) -> set[tuple[str, str]]:
        """Each language with each territory of which the release says that it is spoken there."""
        data = self.parse("supplemental", "supplementalData.xml")
        pairs = set()
        for territory in data.iter("territory"):
            for language in territory.findall("languagePopulation"):
                pairs.add((language.attrib["type"], territory.attrib["type"]))
        for language in data.iterfind("languageData/language"):
            pairs.update((language.attrib["type"], region) for region in language.get("territories", "").split())
        return pairs

    def version(self) -> str | None:
        """The release's version, if its DTD tells it."""
        file = below(self.folder, "dtd", "ldml.dtd")
        found = re.search(rb'cldrVersion CDATA #FIXED "([0-9.]+)"', file.read_bytes()) if file.exists() else None
        return found[1].decode() if found else None
