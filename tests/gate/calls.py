"""The public calls that fail where an allocation does, and which of them the driver doesn't make itself: it makes each but those of
LEFT_OUT, to which it comes through another call, or not at all. A new call has to be asked about, or to be listed with its reason.

The driver makes calls only of crates that its line in crates.txt names. A function is one that it brings in from there and calls, a
method one of a type that it names, or comes to by a call of VALUES, and an associated function stands behind its type.
"""
import os
import re

import crates
import rattle_tests

DRIVER = "test_driver"
# What says that a call may fail so, in the type that it returns.
FAILURES = {"AllocError", "CsvError", "DataError", "FieldsError", "FormError", "LabelsError", "LdmlError", "LineError",
            "MappingEntriesError", "NumberingError", "ReadError", "ReorderingError", "RuleTablesError", "RulesError", "SortKeyError",
            "TableFileError", "TagError", "TailoredEntriesError", "TailoringError", "XmlError"}
# Errors that say so within another one, and such as no public call returns.
WITHIN = {"DataErrorKind", "RuleStepError", "UnplacedError"}
# A public error, of which one kind is that an allocation failed.
ERROR = re.compile(r"^pub enum (\w+)[^{;]*\{(?:(?!^\}).)*^ *NoMemory,", re.M | re.S)
# The head of an `impl`, or a public call: its indentation, its name, and what stands between that and its contract or body.
CALL = re.compile(
    r"^impl\b(?P<impl>[^{]*)\{|^(?P<indent> *)pub (?:const )?fn (?P<name>\w+)(?P<head>.*?)(?:\n *(?:requires|ensures)\b|\{\n)",
    re.M | re.S)
METHOD = re.compile(r"(?:<[^(]*>)?\(\s*(?:&(?:'\w+ )?)?(?:mut )?self\b")
# How the driver, and the tests in tests/rattle, come to a value of a type that they don't name.
VALUES = {"CollatorBorrowed": "as_borrowed", "Mappings": "mappings", "OverlappingMatches": "find_overlapping_iter",
          "WeightTreeBuilder": "tree"}
# Programs, and crates of tests: what the driver asks about are libraries.
OTHERS = {"cldr_collators", "cldr_languages", "collate", "collate_c", "collate_cldr", "collate_commands", "collate_index", "program_files",
          "program_words", "resolve_tags", "sort_names", "test_contracts", DRIVER}
KEY, CHECK, FILE, READ, LINE, INDEX = "`key`", "`check`", "`root`", "`next` and `whole`", "`line`", "`names`"
# Calls to which no question comes: each request of this program is refused by itself, and some are made by tests in Rattle alone,
# without a refusal.
PROGRAM = "the program `collate-cldr`"
INDEXES = "the program `collate-index`, whose writes are stopped in turn"
NAMES = "the program `sort_names`, each of whose requests is refused"
RATTLE = "the tests in tests/rattle, where no allocation is refused"
WITHIN_RATTLE = "another call of the tests in tests/rattle, where no allocation is refused"
# Calls that nothing makes: one on which no program stands yet (a look at the step that comes), and one that hands tables which come
# one by one to `checked_set`.
NOTHING = "nothing"
# The crate and the name of a call, behind its type where it has one, and the question of the driver that comes to it, or what else
# makes it.
LEFT_OUT = {
    ("icu_table_data", "collect_weights"): CHECK,
    ("icu_table_data", "collect_weights_from"): CHECK,
    ("icu_rule_root", "CheckedRoot::new"): RATTLE,
    ("icu_table_provider", "CheckedTables::from_well_formed"): CHECK,
    ("icu_table_provider", "NamedCharacters::new"): CHECK,
    ("icu_table_check", "checked_owned"): PROGRAM,
    ("icu_table_check", "checked_parts"): NOTHING,
    ("icu_collator", "Collator::from_checked_tables"): RATTLE,
    ("icu_collator", "Collator::try_from_tables"): PROGRAM,
    ("icu_collator", "Collator::with_options"): RATTLE,
    ("icu_index", "Headings::new"): RATTLE,
    ("icu_index", "Headings::number_of"): WITHIN_RATTLE,
    ("icu_index", "Headings::of"): RATTLE,
    ("icu_rule_steps", "relation_holds"): RATTLE,
    ("icu_index", "NameIndex::beginning_with"): RATTLE,
    ("icu_cldr_files", "read_index_labels"): INDEXES,
    ("icu_collator", "lower_bound_key"): RATTLE,
    ("icu_collator", "upper_bound_key"): RATTLE,
    ("icu_index_keys", "KeyedNames::beginning_with"): WITHIN_RATTLE,
    ("icu_index_keys", "KeyedStarts::insert"): WITHIN_RATTLE,
    ("icu_cldr_files", "CollationFile::parse"): RATTLE,
    ("icu_cldr_locales", "LanguageTag::collation_type"): RATTLE,
    ("icu_cldr_locales", "LanguageTag::locale"): RATTLE,
    ("icu_cldr_locales", "LanguageTag::parse"): RATTLE,
    ("icu_cldr_locales", "LanguageTag::written"): RATTLE,
    ("icu_cldr_locales", "in_case_of"): PROGRAM,
    ("icu_cldr_locales", "CollationName::of_tag"): PROGRAM,
    ("icu_cldr_locales", "LocaleData::compiled_in"): PROGRAM,
    ("icu_cldr_locales", "TagRequest::of_tag"): PROGRAM,
    ("icu_cldr_locales", "resolved"): "the program `resolve_tags`",
    ("icu_cldr_locales", "tag_text"): PROGRAM,
    ("icu_cldr_locales", "import_tags"): PROGRAM,
    ("icu_cldr_locales", "rules_of_collation"): PROGRAM,
    ("icu_cldr_locales", "with_backward"): PROGRAM,
    ("icu_cldr_locales", "with_reordering"): PROGRAM,
    ("icu_search_places", "IndexedText::from_str"): PROGRAM,
    ("icu_search_places", "IndexedText::new"): WITHIN_RATTLE,
    ("icu_search_places", "IndexedText::part"): WITHIN_RATTLE,
    ("icu_search_places", "grapheme_bounds"): WITHIN_RATTLE,
    ("icu_search_places", "PatternLevel::new"): WITHIN_RATTLE,
    ("icu_search_places", "offset_marks"): WITHIN_RATTLE,
    ("icu_search_places", "utf8_copy"): WITHIN_RATTLE,
    ("icu_search_places", "word_bounds"): WITHIN_RATTLE,
    ("icu_index_store", "PrintedCollator::from_checked_tables"): INDEXES,
    ("icu_index_store", "written_settings"): INDEXES,
    ("icu_index_store", "push_name"): INDEXES,
    ("icu_rule_steps", "SymbolicTailoring::maker_of"): WITHIN_RATTLE,
    ("icu_rule_steps", "SymbolicTailoring::of_rules"): RATTLE,
    ("icu_rule_steps", "SymbolicTailoring::of_statements"): WITHIN_RATTLE,
    ("icu_rule_tables", "Tailoring::from_rules"): WITHIN_RATTLE,
    ("icu_rule_tables", "Tailoring::from_text"): RATTLE,
    ("icu_rule_parser", "Rules::parse"): RATTLE,
    ("icu_rule_parser", "Rules::resolve"): RATTLE,
    ("icu_table_check", "checked_small_tables"): RATTLE,
    ("icu_rule_tables", "script_order"): WITHIN_RATTLE,
    ("icu_rule_tables", "script_reordering"): WITHIN_RATTLE,
    ("icu_search_places", "FoundSpans::next"): PROGRAM,
    ("icu_search_places", "first_least"): PROGRAM,
    ("icu_search_places", "PlaceReader::next"): PROGRAM,
    ("icu_search_places", "place_marks"): RATTLE,
    ("icu_collator", "stable_order"): NAMES,
    ("line_sorts", "LineKeys::push"): PROGRAM,
    ("line_sorts", "OrderedLines::by_fronts"): PROGRAM,
    ("line_sorts", "OrderedLines::new"): PROGRAM,
    ("line_sorts", "lines_by"): PROGRAM,
    ("line_sorts", "push_line"): PROGRAM,
    ("icu_order_texts", "element_weights"): PROGRAM,
    ("line_commands", "disorder_text"): PROGRAM,
    ("line_commands", "first_disorder"): PROGRAM,
    ("line_commands", "keys_text"): PROGRAM,
    ("line_sorts", "push_directed_key"): PROGRAM,
    ("line_sorts", "push_number_key"): PROGRAM,
    ("line_searches", "LinesSoFar::text_of_piece"): PROGRAM,
    ("line_searches", "count_wanted"): PROGRAM,
    ("line_searches", "matches_of_line"): PROGRAM,
    ("line_searches", "wanted_text"): PROGRAM,
    ("line_sorts", "csv_fields"): PROGRAM,
    ("line_sorts", "csv_records"): PROGRAM,
    ("line_commands", "column_disorder_text"): PROGRAM,
    ("line_commands", "csv_error_said"): PROGRAM,
    ("line_commands", "wrong_csv_words"): PROGRAM,
    ("line_commands", "keys_of_words"): PROGRAM,
    ("line_commands", "text_with_keys"): PROGRAM,
    ("line_searches", "name_line"): PROGRAM,
    ("line_searches", "prefix_of"): PROGRAM,
    ("line_searches", "is_folder"): PROGRAM,
    ("line_searches", "matches_name"): PROGRAM,
    ("line_searches", "near_text"): PROGRAM,
    ("line_commands", "columns_of_words"): PROGRAM,
    ("line_commands", "first_column_disorder"): PROGRAM,
    ("line_commands", "print_sorted_by_columns"): PROGRAM,
    ("line_commands", "first_field_disorder"): PROGRAM,
    ("text_reasons", "explained_text"): PROGRAM,
    ("text_reasons", "reason_text"): PROGRAM,
    ("text_reasons", "deciding_part"): PROGRAM,
    ("text_reasons", "explanation"): PROGRAM,
    ("text_reasons", "part_with"): PROGRAM,
    ("text_reasons", "push_characters"): PROGRAM,
    ("icu_rule_steps", "Mappings::has_root_context"): WITHIN_RATTLE,
    ("icu_rule_steps", "Mappings::mapping_step"): WITHIN_RATTLE,
    ("icu_rule_steps", "Mappings::suppression_step"): WITHIN_RATTLE,
    ("icu_rule_steps", "Mappings::symbolic_elements"): RATTLE,
    ("icu_rule_steps", "Mappings::touched_characters"): WITHIN_RATTLE,
    ("icu_rule_steps", "Mappings::untouched"): WITHIN_RATTLE,
    ("icu_rule_steps", "cased_elements"): WITHIN_RATTLE,
    ("icu_rule_steps", "mappings_behind"): WITHIN_RATTLE,
    ("icu_table_files", "TableFile::read"): RATTLE,
    ("icu_table_files", "write"): RATTLE,
    ("icu_table_files", "chars_as_bytes"): WITHIN_RATTLE,
    ("icu_table_files", "chars_from_bytes"): WITHIN_RATTLE,
    ("icu_table_files", "parts_of"): WITHIN_RATTLE,
    ("icu_table_files", "push_part"): WITHIN_RATTLE,
    ("icu_table_files", "u16s_as_bytes"): WITHIN_RATTLE,
    ("icu_table_files", "u16s_from_bytes"): WITHIN_RATTLE,
    ("icu_table_files", "u32s_as_bytes"): WITHIN_RATTLE,
    ("icu_table_files", "u32s_from_bytes"): WITHIN_RATTLE,
    ("icu_table_files", "u64s_as_bytes"): WITHIN_RATTLE,
    ("icu_table_files", "u64s_from_bytes"): WITHIN_RATTLE,
    ("icu_table_files", "with_frame"): RATTLE,
    ("icu_rule_tables", "tailored_data"): RATTLE,
    ("icu_rule_tables", "tailored_diacritics"): RATTLE,
    ("icu_rule_tables", "tailored_jamo"): PROGRAM,
    ("icu_rule_weights", "TailoringNumbers::of_tree"): RATTLE,
    ("icu_search", "FoundMatches::next"): PROGRAM,
    ("icu_search", "OverlappingMatches::next"): RATTLE,
    ("icu_search", "SearchedText::find"): RATTLE,
    ("icu_search", "SearchedText::find_at"): RATTLE,
    ("icu_search", "SearchedText::prefix_match"): RATTLE,
    ("icu_search", "SearchedText::within"): RATTLE,
    ("icu_search", "Searcher::find"): RATTLE,
    ("icu_search", "Searcher::find_latin1"): RATTLE,
    ("icu_search", "Searcher::find_utf16"): RATTLE,
    ("icu_search", "Searcher::find_utf8"): RATTLE,
    ("icu_search", "Searcher::is_match"): RATTLE,
    ("icu_search", "Searcher::is_match_latin1"): RATTLE,
    ("icu_search", "Searcher::is_match_utf16"): RATTLE,
    ("icu_search", "Searcher::is_match_utf8"): RATTLE,
    ("icu_search", "Searcher::new"): PROGRAM,
    ("icu_search", "Searcher::new_latin1"): RATTLE,
    ("icu_search", "Searcher::new_utf16"): RATTLE,
    ("icu_search", "Searcher::new_utf8"): RATTLE,
    ("icu_search", "Searcher::prefix_match"): RATTLE,
    ("icu_search", "Searcher::prefix_match_latin1"): RATTLE,
    ("icu_search", "Searcher::prefix_match_utf16"): RATTLE,
    ("icu_search", "Searcher::prefix_match_utf8"): RATTLE,
    ("icu_search", "Searcher::read"): PROGRAM,
    ("icu_rule_weights", "weights_between"): RATTLE,
    ("icu_rule_weights", "number_level"): RATTLE,
    ("icu_rule_weights", "number_primaries"): RATTLE,
    ("icu_rule_weights", "number_runs"): RATTLE,
    ("icu_rule_weights", "primary_gaps_of_runs"): RATTLE,
    ("icu_rule_weights", "sibling_runs"): RATTLE,
    ("icu_search", "Searcher::read_by"): PROGRAM,
    ("icu_search", "Searcher::read_latin1"): RATTLE,
    ("icu_search", "Searcher::read_utf16"): RATTLE,
    ("icu_search", "Searcher::read_utf8"): RATTLE,
    ("icu_rule_meaning", "RuleElements::differ_at"): WITHIN_RATTLE,
    ("icu_rule_meaning", "RuleElements::differ_by"): WITHIN_RATTLE,
    ("icu_rule_meaning", "RuleElements::go_before_at"): WITHIN_RATTLE,
    ("icu_rule_meaning", "RuleElements::go_before_by"): WITHIN_RATTLE,
    ("icu_rule_meaning", "WeightTreeBuilder::begun_parents"): WITHIN_RATTLE,
    ("icu_rule_meaning", "WeightTreeBuilder::put_before"): WITHIN_RATTLE,
    ("icu_rule_meaning", "WeightTreeBuilder::put_new_weight"): WITHIN_RATTLE,
    ("icu_rule_meaning", "WeightTreeBuilder::put_weights"): WITHIN_RATTLE,
    ("icu_rule_meaning", "WeightTreeBuilder::siblings"): RATTLE,
    ("icu_rule_meaning", "WeightTreeBuilder::siblings_below"): WITHIN_RATTLE,
    ("icu_cldr_files", "read_document"): RATTLE,
    ("icu_table_weights", "first_overlap"): CHECK,
    ("icu_table_weights", "first_common_overlap"): CHECK,
    ("icu_table_weights", "WeightSet::others"): CHECK,
    ("icu_table_weights", "WeightSet::weights_of_lead"): CHECK,
    ("icu_table_weights", "first_common_set_overlap"): CHECK,
    ("icu_table_weights", "first_set_overlap"): CHECK,
    ("icu_table_weights", "set_compresses_alike"): CHECK,
    ("icu_element_reading", "StepReader::next"): PROGRAM,
    ("icu_element_reading", "StepReader::peek"): NOTHING,
    ("icu_element_reading", "decomposed_text"): KEY,
    ("icu_element_matches", "ClassedText::push"): READ,
    ("icu_element_matches", "Text::push"): READ,
    ("icu_element_matches", "decided_front"): READ,
    ("icu_element_matches", "find_match"): READ,
    ("icu_key_writers", "BackwardWriter::push"): KEY,
    ("icu_key_writers", "HeldCases::finish"): KEY,
    ("icu_key_writers", "HeldCases::push"): KEY,
    ("icu_key_writers", "HeldCases::push_lower"): KEY,
    ("icu_key_writers", "HeldQuaternaries::finish"): KEY,
    ("icu_key_writers", "HeldQuaternaries::push"): KEY,
    ("icu_key_writers", "HeldQuaternaries::push_commons"): KEY,
    ("icu_key_writers", "HeldSecondaries::push"): KEY,
    ("icu_key_writers", "HeldSecondaries::push_commons"): KEY,
    ("icu_key_writers", "HeldSegments::end_segment"): KEY,
    ("icu_key_writers", "HeldSegments::finish"): KEY,
    ("icu_key_writers", "HeldSegments::push"): KEY,
    ("icu_key_writers", "HeldTertiaries::push"): KEY,
    ("icu_key_writers", "HeldTertiaries::push_commons"): KEY,
    ("icu_key_writers", "end_key"): KEY,
    ("icu_key_writers", "push_secondary"): KEY,
    ("icu_key_writers", "push_tertiary"): KEY,
    ("icu_index_keys", "KeyedNames::insert"): INDEX,
    ("icu_key_texts", "KeyWriter::close"): KEY,
    ("icu_key_texts", "KeyWriter::push"): KEY,
    ("icu_key_texts", "KeyWriter::push_shifted"): KEY,
    ("icu_key_texts", "KeyWriter::push_stayed"): KEY,
    ("icu_key_texts", "write_key"): KEY,
    ("icu_cldr_root", "CharRange::parse_all"): LINE,
    ("icu_cldr_root", "FractionalElement::parse_all"): LINE,
    ("icu_cldr_root", "IdeographOrder::radical_stroke"): PROGRAM,
    ("icu_cldr_root", "Mapping::parse"): LINE,
    ("icu_cldr_root", "RadicalLine::parse"): PROGRAM,
    ("icu_cldr_root", "read_root_by"): PROGRAM,
    ("icu_table_mappings", "entry_in_contexts"): FILE,
    ("icu_table_mappings", "entry_of_digit"): FILE,
    ("icu_table_mappings", "entry_of_elements"): FILE,
    ("icu_table_mappings", "put_between"): FILE,
    ("icu_table_provider", "OwnedDiacritics::copy"): CHECK,
    ("icu_table_provider", "OwnedJamo::copy"): CHECK,
    ("icu_table_provider", "OwnedReordering::copy"): CHECK,
    ("icu_table_provider", "OwnedSpecialPrimaries::copy"): CHECK,
    ("icu_table_provider", "OwnedTables::copy"): CHECK,
    ("icu_table_provider", "DataBuilder::add_elements"): FILE,
    ("icu_table_provider", "DataBuilder::add_entries"): FILE,
    ("icu_table_provider", "DataBuilder::add_context"): FILE,
    ("icu_table_provider", "DataBuilder::build"): FILE,
    ("icu_table_provider", "DataBuilder::new"): FILE,
    ("icu_table_provider", "OwnedData::copy"): CHECK,
}


class Call:
    """A public call: its crate, its type, if it has one, its name, and whether it is a method."""

    def __init__(self, crate, owner, name, is_method):
        self.crate, self.owner, self.name, self.is_method = crate, owner, name, is_method
        self.key = crate, f"{owner}::{name}" if owner else name

    def is_made(self, asked):
        """Whether sources make it, which bring items in."""
        if not self.owner:
            brought_in = rf"\buse {self.crate}::[^;]*\b{self.name}\b"
            return bool(re.search(brought_in, asked) and re.search(rf"(?<![.\w]){self.name}\(", asked))
        if not self.is_method:
            return bool(re.search(rf"\b{self.owner}::{self.name}\(", asked))
        named = VALUES.get(self.owner, self.owner)
        return bool(re.search(rf"\b{named}\b", asked) and re.search(rf"\.{self.name}\(", asked))


def sources(crate):
    for at, folders, names in os.walk(os.path.join(crates.TOP, "crates", crate, "src")):
        folders.sort()
        yield from (crates.read(os.path.join(at, it)) for it in sorted(names) if it.endswith(".rt") and not it.startswith("tests"))


def owner_of(head):
    """The type of an `impl`, by what stands between that word and its body; of a slice the type of its members."""
    head, before = head.partition(" where ")[0], ""
    while head != before:
        head, before = re.sub(r"<[^<>]*>", "", head), head
    return re.findall(r"\w+", head)[-1]


def calls_of(crate, text):
    owner = None
    for it in CALL.finditer(text):
        if it["name"] is None:
            owner = owner_of(it["impl"])
        elif FAILURES & set(re.findall(r"\w+", it["head"])):
            yield Call(crate, owner if it["indent"] else None, it["name"], bool(METHOD.match(it["head"])))


def libraries():
    return [it for it in crates.listed() if it not in OTHERS]


def calls():
    """The public calls of libraries that may fail where an allocation does."""
    return [it for crate in libraries() for text in sources(crate) for it in calls_of(crate, text)]


def unknown_errors(texts):
    """The public errors of these sources that say that an allocation failed, and that FAILURES doesn't have."""
    return sorted({it for text in texts for it in ERROR.findall(text)} - FAILURES - WITHIN)


def without_names(text):
    """Sources without comments, and without what they declare."""
    return re.sub(r"//[^\n]*|\bfn \w+", "", text)


def calls_untested(text):
    """The calls that are left to the tests in tests/rattle, and that their sources don't make."""
    text = without_names(text)
    left = {key for key, reason in LEFT_OUT.items() if reason == RATTLE}
    return [f"tests/rattle doesn't make {'::'.join(it.key)}" for it in calls() if it.key in left and not it.is_made(text)]


def wrong_calls(asked, below):
    """The calls that sources of a driver over these crates neither make nor leave out with a reason, and reasons for such as aren't
    left out."""
    asked = without_names(asked)
    missing = {it.key for it in calls() if it.crate not in below or not it.is_made(asked)}
    found = [f"the driver doesn't make {'::'.join(it)}" for it in sorted(missing - set(LEFT_OUT))]
    return found + [f"is no call that the driver leaves out: {'::'.join(it)}" for it in sorted(set(LEFT_OUT) - missing)]


# Names that are taken from the driver's sources, each of which has to be missed.
LOST = ["write_sort_key_to", "equal_to", "try_new_unstable", "load_tables", "as_borrowed"]
# Names that are taken from the sources of tests/rattle, each of which has to be missed.
LOST_TESTS = ["find_utf16", "relation_holds", "siblings"]
# Crates that have to be missed where the driver's line doesn't name them.
LOST_CRATES = ["icu_collator", "icu_index"]


def faults_missed(asked, below):
    """The calls that are taken from the driver, and the errors, that are not found."""
    found = [f"not found: {it}" for it in LOST if not wrong_calls(re.sub(rf"\b{it}\b", "", asked), below)]
    found += [f"not found: no {it} below" for it in LOST_CRATES if not wrong_calls(asked, below - {it})]
    found += [f"not found: {it}" for it in LOST_TESTS if not calls_untested(re.sub(rf"\b{it}\b", "", rattle_tests.text()))]
    return found + ["not found: an error"] * (unknown_errors(["pub enum Lost<E> {\n    Other(E),\n    NoMemory,\n}\n"]) != ["Lost"])


def check_calls(report):
    listed = crates.listed()
    asked, below = "\n".join(sources(DRIVER)), set(listed[DRIVER].deps)
    wrong = wrong_calls(asked, below)
    wrong += [f"is no known error of memory: {it}" for it in unknown_errors(text for crate in libraries() for text in sources(crate))]
    wrong += calls_untested(rattle_tests.text())
    report.say("the driver, or a test in Rattle, makes each call that allocates", wrong, len(calls()))
    planted = len(LOST) + len(LOST_TESTS) + len(LOST_CRATES) + 1
    report.say("a call that neither of them makes is found", faults_missed(asked, below), planted)
