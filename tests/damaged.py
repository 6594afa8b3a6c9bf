#!/usr/bin/env python3
"""Damages a copy of the repository and sees that each check of layout.py, repository.py, pages.py and header.py notices."""
import pathlib
import re
import shutil
import sys
import tempfile

import header
import layout
import pages
import repository
from checklist import HERE, Skip, faults_of, run

RECORD, BOOK = "crates/definition/specs/Record.antt", "crates/definition/specs/Book.antt"
LIMITS, MODEL, PLACES = "crates/definition/specs/Limits.antt", "crates/model/src/lib.rt", "crates/record/src/places.rt"
MEANING = "crates/model/specs/Meaning.antt"
CLAUSES, TEXTS = "crates/definition/specs/Clauses/Does.antt", "crates/definition/proofs/Laws/Text/Cause.antt"
CODE, SPECS, LAWS = "crates/octets/src/lib.rt", "crates/octets/specs/Bytes.antt", "crates/octets/specs/BoolLaws.antt"
VECTORS = "crates/sha256_vectors/stdout"
JSON, PAGE, CLAIMS, ARCHITECTURE = "docs/layout.json", "docs/LAYOUT.md", "docs/CLAIMS.md", "docs/ARCHITECTURE.md"
HEADER, WRONG, TRUST = "include/alarm_register.h", "tests/wrong/octets.txt", "docs/TRUST.md"
TABLE, NUMBERS, REFUSAL = "docs/NUMBERS.md", "crates/definition/specs/Numbers.antt", "rust/alarm-register/src/refusal.rs"
STATION, EXPORTS = "crates/station/src/lib.rt", "crates/station_c/src/lib.rt"
OFFSETS, PANEL = "rust/alarm-register/src/layout.rs", "rust/alarm-register/src/panel.rs"

# For each check: what is damaged, in which file, the pattern, and what takes its place.
DAMAGES = {
    (layout, "layout.json has its form"): [
        ("a header field renamed", JSON, r'"free_length"', '"free_count"'),
        ("a key of a string renamed", JSON, r'"at": 49', '"from": 49'),
        ("a length of one byte", JSON, r"\[113, 2\]", "[113, 1]"),
    ],
    (layout, "LAYOUT.md and layout.json agree"): [
        ("an offset in layout.json", JSON, r'"queue": 411', '"queue": 410'),
        ("a width on the page", PAGE, r"\| successes \| 44 \| 8 \|", "| successes | 44 | 4 |"),
        ("a row of the page left out", PAGE, r"\| principal \| 246 .*\n", ""),
    ],
    (layout, "slots fill 1,536 bytes"): [
        ("the spare too short", PAGE, r"\| spare \| 1464 \| 72 \|", "| spare | 1464 | 71 |"),
        ("a gap before the spare", PAGE, r"\| spare \| 1464 \| 72 \|", "| spare | 1465 | 71 |"),
        ("two slots overlap", JSON, r'"reason": \{"len": \[377', '"reason": {"len": [376'),
        ("a slot on the next index", JSON, r'"action": 4', '"action": 3'),
    ],
    (layout, "strings of each kind"): [
        ("a kind with a string too many", JSON, r'"5": \[0\]', '"5": [0, 1]'),
        ("no optional shard", JSON, r'"present_kinds": \[4\]', '"present_kinds": []'),
    ],
    (layout, "stretches of sameness and texts"): [
        ("a stretch too long", PAGE, r"\| 47 \| 678 \|", "| 47 | 680 |"),
        ("a field left out", PAGE, r"\| severity, state \|", "| severity |"),
    ],
    (layout, "constants of the record type"): [
        ("a limit", MODEL, r"CAUSE: usize = 96", "CAUSE: usize = 64"),
        ("a constant left out", MODEL, r"pub const WIDTH.*\n", ""),
    ],
    (layout, "places in the code"): [
        ("a place of the header", MODEL, r"FREE_FIRST: usize = 36", "FREE_FIRST: usize = 32"),
        ("the width of a slot", PLACES, r"CAUSE: usize = Self::LENGTH \+ Record::CAUSE", "CAUSE: usize = Self::LENGTH + Record::SHORT"),
        ("a slot left out", PLACES, r"Self::SLICE \+ Slot::OPTIONAL_SHORT", "Self::TENANT + Slot::OPTIONAL_SHORT"),
        ("a place that is no sum", PLACES, r"Self::SECOND \+ Slot::SHORT", "Self::SECOND + short(Slot::SHORT)"),
    ],
    (layout, "limits of the definition"): [
        ("a limit", LIMITS, r"text_limit = 256", "text_limit = 255"),
    ],
    (layout, "slots of the definition's records"): [
        ("two alarm slots exchanged", RECORD, r"(∷ short holds .*\.type\)\n)(.*\n)", r"\2\1"),
        ("the room of a string", RECORD, r"string cause_limit", "string short_limit"),
        ("an event's spare", RECORD, r"spare 767 holds", "spare 766 holds"),
    ],
    (layout, "header of the definition"): [
        ("an offset that is read", BOOK, r"\(at32 s 28\)", "(at32 s 36)"),
        ("two words exchanged", BOOK, r"first_of b\.audit ∷ length b\.audit", "length b.audit ∷ first_of b.audit"),
        ("the zeros behind", BOOK, r"zeros 1476", "zeros 1480"),
    ],
    (header, "offsets are the layout's"): [
        ("an offset in layout.json", JSON, r'"queue": 411', '"queue": 410'),
        ("an offset in the header", HEADER, r"(ALARM_EVENT_REASON +)379u", r"\g<1>378u"),
        ("the offset of the raises", HEADER, r"(ALARM_RECORD_RAISES +)1451u", r"\g<1>1450u"),
        ("the offset of the end", HEADER, r"(ALARM_RECORD_END +)1456u", r"\g<1>1455u"),
        ("a constant left out", HEADER, r"^#define ALARM_RECORD_KEY .*\n", ""),
        ("a constant too many", HEADER, r"^#define ALARM_RECORD_KEY .*\n", r"\g<0>#define ALARM_RECORD_COLOUR 5u\n"),
    ],
    (header, "limits of strings are the layout's"): [
        ("a limit", HEADER, r"(ALARM_LONGEST_CAUSE +)96u", r"\g<1>64u"),
        ("a room on the page", PAGE, r"\| region \| 550 \| 128 \|", "| region | 550 | 64 |"),
    ],
    (header, "raises are read"): [
        ("the offset of the raises", HEADER, r"(ALARM_RECORD_RAISES +)1451u", r"\g<1>1452u"),
        ("two bytes exchanged", HEADER, r"raises\[1\] << 16 \| \(uint32_t\)raises\[2\]", "raises[2] << 16 | (uint32_t)raises[1]"),
        ("a reader that warns where it is not used", HEADER, r"^static inline (uint32_t alarm_record_raises)", r"static \1"),
        ("another reader that warns where it is not used", HEADER, r"^static inline (uint32_t alarm_panel_active)", r"static \1"),
    ],
    (header, "ends are read"): [
        ("the offset of the option byte", HEADER, r"(ALARM_RECORD_END_PRESENT +)1455u", r"\g<1>1456u"),
        ("the offset of the end", HEADER, r"(ALARM_RECORD_END +)1456u", r"\g<1>1455u"),
        ("a byte left out", HEADER, r"i < 8; i\+\+", "i < 7; i++"),
        ("times before 1970 one too late", HEADER, r"UINT64_MAX - time\) - 1", "UINT64_MAX - time)"),
    ],
    (header, "a panel's bytes are the layout's"): [
        ("an offset on the page", PAGE, r"^\| lit \| 3 \|", "| lit | 2 |"),
        ("a width on the page", PAGE, r"^\| active \| 4 \| 4 \|", "| active | 4 | 2 |"),
        ("a row of the page left out", PAGE, r"^\| active \| 4 .*\n", ""),
        ("an offset in the header", HEADER, r"(ALARM_PANEL_WAITING +)2u", r"\g<1>3u"),
        ("a constant of the header left out", HEADER, r"^#define ALARM_PANEL_LIT .*\n", ""),
        ("a constant of the header too many", HEADER, r"^#define ALARM_PANEL_LIT .*\n", r"\g<0>#define ALARM_PANEL_HORN 9u\n"),
        ("the width in the header", HEADER, r"(ALARM_PANEL_WIDTH +)8u", r"\g<1>9u"),
        ("the mask of all severities in the header", HEADER, r"(ALARM_PANEL_MASK_ALL +)63u", r"\g<1>31u"),
        ("an offset in the crate", OFFSETS, r"MASK: usize = 1;", "MASK: usize = 0;"),
        ("a constant of the crate left out", OFFSETS, r"^    pub const LIT: .*\n", ""),
        ("the width in the crate", OFFSETS, r"PANEL_WIDTH: usize = 8", "PANEL_WIDTH: usize = 7"),
        ("the mask of all severities in the crate", PANEL, r"MASK_ALL: u8 = 0x3f", "MASK_ALL: u8 = 0x7f"),
    ],
    (header, "a panel's active length is read"): [
        ("the offset of the active length", HEADER, r"(ALARM_PANEL_ACTIVE +)4u", r"\g<1>3u"),
        ("two bytes exchanged", HEADER, r"active\[0\] << 24 \| \(uint32_t\)active\[1\]", "active[1] << 24 | (uint32_t)active[0]"),
    ],
    (header, "numbers are those of docs/NUMBERS.md"): [
        ("a number on the page", TABLE, r"^\| 31 ", "| 32 "),
        ("a row of the page too many", TABLE, r"^\| 31 (.*\n)", r"\g<0>| 33 \1"),
        ("a row of the page left out", TABLE, r"^\| 31 .*\n", ""),
        ("0 left out of the page", TABLE, r"^\| 0 .*\n", ""),
        ("two rows of the page exchanged", TABLE, r"^(\| 26 .*\n)(.*\n)", r"\2\1"),
        ("another name on the page", TABLE, r"`ALARM_REFUSED_UTF8`", "`ALARM_REFUSED_UTF16`"),
        ("a name for 0 on the page", TABLE, r"^(\| 0 .*\|) \|$", r"\1 `ALARM_DONE` |"),
        ("a number of another entry point on the page", TABLE, r"^(\| 22 .*)`alarm_step`", r"\1`alarm_open`, `alarm_step`"),
        ("an entry point that is not there on the page", TABLE, r"^(\| 22 .*)`alarm_step`", r"\1`alarm_step`, `alarm_stop`"),
        ("a removed number that is given", TABLE, r"^\| 32 ", "| 31 "),
        ("a number of the definition", NUMBERS, r"31 ∷ \[\]", "32 ∷ []"),
        ("a number of the definition too many", NUMBERS, r"31 ∷ \[\]", "31 ∷ 32 ∷ []"),
        ("a number of the definition left out", NUMBERS, r"21 ∷ \[\]", "[]"),
        ("two numbers of the definition exchanged", NUMBERS, r"24 ∷ 25", "25 ∷ 24"),
        ("a part of a list of the definition left out", NUMBERS, r"call_refusals \+\+ \((.*)\)$", r"\1"),
        ("a list of the definition left out", NUMBERS, r"^opening_refusals = .*\n", ""),
        ("a list of the definition too many", NUMBERS, r"\Z", "\nabbrev pub horn_refusals : List ℕ\nhorn_refusals = 22 ∷ []\n"),
        ("a number of the panel's list left out", NUMBERS, r"^panel_refusals = 22 ∷ 30", "panel_refusals = 22"),
        ("two numbers of the panel's list exchanged", NUMBERS, r"^panel_refusals = 22 ∷ 30", "panel_refusals = 30 ∷ 22"),
        ("the panel's list left out", NUMBERS, r"^panel_refusals = .*\n", ""),
        ("one of two entry points with one list left out of a row of the page", TABLE, r"^(\| 30 .*), `alarm_panel_write`", r"\1"),
        ("an entry point of the header left out", HEADER, r"^uint32_t alarm_panel_look\(", "uint32_t panel_look("),
        ("a number of the header", HEADER, r"(ALARM_REFUSED_UTF8 +)27u", r"\g<1>26u"),
        ("a number of the header too many", HEADER, r"^#define ALARM_REFUSED_ID_ACTIVE .*\n", r"\g<0>#define ALARM_REFUSED_FREE_ENDED 32u\n"),
        ("a number of the header left out", HEADER, r"^#define ALARM_REFUSED_ID_ACTIVE .*\n", ""),
        ("two numbers of the header exchanged", HEADER, r"^(#define ALARM_REFUSED_VALUE .*\n)(.*\n)", r"\2\1"),
        ("another name in the header", HEADER, r"ALARM_REFUSED_UTF8 ", "ALARM_REFUSED_TEXT "),
        ("an entry point of the header too many", HEADER, r"^uint32_t alarm_step\(", r"uint32_t alarm_stop(void);\n\g<0>"),
        ("a number of the crate", REFUSAL, r"=> 31,", "=> 32,"),
        ("a number of the crate too many", REFUSAL, r"^( +)Refusal::IdActive => 31,\n", r"\g<0>\1Refusal::FreeEnded => 32,\n"),
        ("a number of the crate left out", REFUSAL, r"^ +Refusal::IdActive => 31,\n", ""),
        ("two numbers of the crate exchanged", REFUSAL, r"^( +Refusal::Value => .*\n)(.*\n)", r"\2\1"),
        ("a refusal of the crate's enum too many", REFUSAL, r"^    IdActive,\n", r"\g<0>    /// 32: no record is free.\n    FreeEnded,\n"),
        ("another number in the crate's enum", REFUSAL, r"/// 31: ", "/// 32: "),
        ("a refusal left out of the crate's ALL", REFUSAL, r"^ +Refusal::IdActive,\n", ""),
        ("two refusals of the crate's ALL exchanged", REFUSAL, r"^( +Refusal::Value,\n)(.*\n)", r"\2\1"),
        ("another name in the crate", REFUSAL, r"^    Utf8,", "    Text,"),
    ],
    (repository, "crates are listed"): [
        ("a crate left out", "crates.txt", r"^octets:.*\n", ""),
        ("a crate that is not there", "crates.txt", r"\Z", "nowhere:\n"),
        ("a crate before what it depends on", "crates.txt", r"^(octets:.*\n)(fips180:.*\n)", r"\2\1"),
    ],
    (repository, "public functions have an ensures"): [
        ("a function with none", CODE, r"\Z", "pub fn extra(a: u8) -> u8 {\n    a\n}\n"),
        ("an ensures taken away", CODE, r"(pub fn equal[^{]*)ensures \{[^}]*\}", r"\1"),
    ],
    (repository, "entry points have no requires"): [
        ("an entry point with one", CODE, r"\Z",
         'pub extern "C" fn extra(a: u8) -> u8\n    requires { a < 9 }\n    ensures { result ≡ a }\n{\n    a\n}\n'),
        ("a function with one that an entry point calls", STATION, r"^(pub fn alarm_open[^{]*)ensures", r"\1requires { active ≤ 65535 }\n    ensures"),
    ],
    (repository, "exports promise what the library does"): [
        ("a word of a contract", EXPORTS, r"result length\.new register\.new", "result 0 register.new"),
        ("a narrower parameter", EXPORTS, r"value: u8,", "value: u16,"),
        ("an export with no function", EXPORTS, r"fn alarm_step\(", "fn alarm_stop("),
    ],
    (repository, "no hole and no axiom"): [
        ("a hole", LAWS, r"\Z", "\nextra : 0 ≡ 0\nextra = ?\n"),
        ("a hole with a name", LAWS, r"\Z", "\nextra : 0 ≡ 0\nextra = ?later\n"),
        ("a term on trial", LAWS, r"\Z", "\nextra : 0 ≡ 0\nextra = {! refl !}\n"),
        ("an axiom", LAWS, r"\Z", "\naxiom pub extra : 0 ≡ 1\n"),
    ],
    (repository, "symbols are the library's"): [
        ("another equality in a contract", CODE, r"Rattle\.std\.specs\.Prelude\.\{◌≡◌", "mathlib.Core.Pair.{◌≡◌"),
        ("an order under the name of equality", CODE, r"Rattle\.std\.specs\.Prelude\.\{◌≡◌", "Rattle.std.specs.Prelude.{◌≤◌ as ◌≡◌"),
        ("Rust's option in the definition", RECORD, r"Rattle\.std\.proofs\.Math\.Option\.\{Option", "Rattle.std.specs.Prelude.{Option"),
        ("both options in one file", MEANING, r"\Z", "use Rattle.std.specs.Prelude.{Option}\n"),
        ("an order of one's own", SPECS, r"\Z", "\nabbrev pub ◌≤◌ : ℕ → ℕ → Bool\n◌≤◌ m n = true\n"),
        ("a length that only its file sees", SPECS, r"\Z", "\nlength : ℕ → ℕ\nlength n = n\n"),
        ("a list of one's own", SPECS, r"\Z", "\npub data List (A : Type 0) : Type 0 where\n  none_left : List A\n"),
    ],
    (repository, "the definition has no code"): [
        ("code", "crates/definition/src/lib.rt", r"\Z", "const A: u8 = 1;\n"),
        ("a declared type", LIMITS, r"\Z", "use Rattle.model.specs.declared.Span.{Span}\n"),
        ("a declared type in a cited file", SPECS, r"\Z", "use Rattle.octets.specs.declared.Cursor.{Cursor}\n"),
        ("a declared type in a law", TEXTS, r"\Z", "use Rattle.model.specs.declared.Span.{Span}\n"),
    ],
    (repository, "definitions stand by themselves"): [
        ("a law that is cited", LIMITS, r"\Z", "use Rattle.definition.proofs.Laws.Text.Cause.{cause_length}\n"),
        ("another crate's law that is cited", LIMITS, r"\Z", "use Rattle.octets.proofs.NumberSteps.{digits_step}\n"),
        ("a word of contracts that is cited", LIMITS, r"\Z", "use Rattle.definition.specs.Clauses.LegalBook.{Limit}\n"),
        ("a law that a contract cites", CLAUSES, r"\Z", "use Rattle.definition.proofs.Laws.Text.Cause.{cause_length}\n"),
        ("a law among the contracts", CLAUSES, r"\Z", "\npub extra : 0 ≡ 0\nextra = refl\n"),
    ],
    (pages, "ARCHITECTURE lists the crates by level"): [
        ("a row left out", ARCHITECTURE, r"^\| \w* ?\| `fips180` .*\n", ""),
        ("a crate on another level", ARCHITECTURE, r"^\| entries \| `station`", "| | `station`"),
    ],
    (pages, "ARCHITECTURE follows a raise"): [
        ("a function that is not there", ARCHITECTURE, r"key::key_of ", "key::key_off"),
        ("a definition that is not there", ARCHITECTURE, r" updated_by  ", " updated_bye "),
    ],
    (pages, "claims are there, one for each public function"): [
        ("a theorem that is not there", CLAIMS, r"`published`", "`publicised`"),
        ("a public function left out", CLAIMS, r"`put_zeros`", "`put_bytes`"),
        ("a function left out that a crate's root hands on beside others", CLAIMS, r"`are_limits`", "`capacity`"),
    ],
    (repository, "wrong answers fit the code"): [
        ("a function that is not there", WRONG, r"^== get16:", "== get17:"),
        ("a text that is not there", WRONG, r"^- let mut v = 0;", "- let mut v = 2;"),
    ],
    (pages, "the page of wrong answers is theirs"): [
        ("a wrong answer that was renamed", WRONG, r"^(== get16: half) of the bytes", r"\1 of its bytes"),
        ("a row left out", "docs/WRONG.md", r"^\| `get16` .*\n", ""),
        ("a must-fail edit that says something else", "crates/octets/must-fail/number_weight.edit", r"256 times", "255 times"),
    ],
    (pages, "sentences have their definitions"): [
        ("a definition renamed", "crates/definition/specs/Steps.antt", r"\bmake_room\b", "make_place"),
        ("a file that states nothing", "docs/SENTENCES.md", r"(`key_of`; .*\| )`Key.antt`", r"\1`Cause.antt`"),
    ],
    (pages, "paths in documents are there"): [
        ("a path to nothing", "README.md", r"\Z", "See docs/NOWHERE.md.\n"),
        ("a law that is nowhere", ARCHITECTURE, r"\Z", "See `Laws/Text/Nowhere.antt`.\n"),
    ],
    (pages, "each enum has its meaning"): [
        ("an enum left out", CLAIMS, r"^\| `Parsed` .*\n", ""),
        ("an enum that is not there", CLAIMS, r"^\| `Refusal`, ", "| `Refusal`, `Response`, "),
        ("a definition that is not there", CLAIMS, r"`cause_value`: ", "`cause_worth`: "),
    ],
    (pages, "TRUST lists the definition, with its lines"): [
        ("a definition that has grown", LIMITS, r"\Z", "-- more\n"),
        ("a file left out", TRUST, r"^\| `Mask.antt` .*\n", ""),
        ("a file that is cited and left out", TRUST, r"^\| `crates/octets/specs/Pack.antt` .*\n", ""),
        ("a sum", TRUST, r"^\| all \| \d,", "| all | 9,"),
    ],
    (pages, "TRUST names the toolchain"): [
        ("another toolchain", TRUST, r"^    rattle-", "    prattle-"),
        ("another logic", TRUST, r"sum=\w+", "sum=0"),
    ],
    (pages, "TRUST's edits are must-fail edits"): [
        ("another edit on the page", TRUST, r"`w\[t - 14\]`", "`w[t - 13]`"),
        ("another must-fail edit", "crates/sha256/must-fail/schedule.edit", r"t - 14", "t - 13"),
    ],
    (repository, "vectors are Python's"): [
        ("a digest", VECTORS, r"^e3b0c44298fc1c14", "e3b0c44298fc1c15"),
        ("a digest too many", VECTORS, r"\Z", "00\n"),
        ("a verdict", "crates/register_damaged/stdout", r"^unsound", "sound"),
        ("second bytes of a row of UTF-8", "crates/utf8_vectors/stdout", r"^ed-ed: 80-9f", "ed-ed: 80-bf"),
        ("other ASCII in the texts, of which stdin alone speaks", "tests/vectors/utf8.py", r"BEHIND, number", "BEHIND, number + 1"),
    ],
    (repository, "files are in rt fmt's layout"): [
        ("a blank too many", CODE, r"pub fn equal", "pub  fn equal"),
    ],
}

def copied(folder):
    """A copy of what the checks read."""
    for name in ("crates", "docs", "tests", "compare", "include", "rust", "examples", "bench", ".ci"):
        shutil.copytree(HERE / name, folder / name, ignore=shutil.ignore_patterns("__pycache__", "target", "out"))
    for name in ("crates.txt", "README.md", "NOTICE"):
        shutil.copy(HERE / name, folder / name)


def noticed(folder, check, path, pattern, new):
    """A check that passes on the copy, and fails once the file is damaged."""
    def go(_root):
        file = folder / path
        if not file.exists():
            raise Skip(f"{path} is not there yet")
        whole = file.read_text(encoding="utf-8")
        text, times = re.subn(pattern, new, whole, count=1, flags=re.M)
        if faults_of(check, folder):
            yield "it fails without the damage"
        elif not times or text == whole:
            yield f"{path} has no {pattern}"
        else:
            file.write_text(text, encoding="utf-8")
            if not faults_of(check, folder):
                yield f"{path} passes"
            file.write_text(whole, encoding="utf-8")
    return go


def covered(_root):
    """Each check has a damage."""
    for script in (layout, repository, pages):
        for name in script.CHECKS:
            if not DAMAGES.get((script, name)):
                yield f"{script.__name__}: {name}"


def main():
    with tempfile.TemporaryDirectory() as name:
        folder = pathlib.Path(name)
        copied(folder)
        checks = {"each check has a damage": covered}
        for (script, check), rows in DAMAGES.items():
            for what, *damage in rows:
                checks[f"{check}: {what}"] = noticed(folder, script.CHECKS[check], *damage)
        return run("damaged", checks)


if __name__ == "__main__":
    sys.exit(main())
