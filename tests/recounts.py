"""`station recount` on reports that are right, wrong or none: their figures and their balance. Checks for desk.py."""
import json
import os
import shutil
import subprocess

from checklist import HERE
from program import DAY, MONTH, PAGE_WIDTH, STATION, WORK, ends, saved, tells, too_wide, works

# The four figures of the day's balance.
BALANCE = {"raised": 8, "active at end": 2, "cleared": 5, "expired": 1}
FORMS = ([], ["--csv"], ["--json"])


def recounted(_root):
    """A report is equal, or each difference stands in a row and the status is 1."""
    shutil.copy(MONTH, HERE / "target/desk/month.calls")
    out = works("recount", "target/desk/month.calls", "--against", "examples/second-case/report.csv", status=1).decode()
    if out != (HERE / "examples/second-case/recount").read_text(encoding="utf-8"):
        yield "examples/second-case/recount is not what `station recount` prints"
    if b"Equal: the 44 figures of examples/day.csv" not in works("recount", DAY, "--against", "examples/day.csv"):
        yield "the day's report is not equal to its calls"
    true = works("recount", MONTH, "--csv").decode()
    if b"Equal: the 30 figures" not in works("recount", MONTH, "--against", saved("true.csv", true)):
        yield "a list's own figures are not equal to it"
    works("recount", MONTH, "--against", saved("semicolons.csv", true.replace(",", ";")))
    spoilt = json.loads(works("recount", MONTH, "--against", saved("spoilt.csv", true.replace("updated,3324", "updated,3325")), "--json", status=1))
    if spoilt["differing"] != 1 or [row["difference"] for row in spoilt["figures"] if row["difference"] is not None] != ["+1"]:
        yield f"one changed figure gives {spoilt}"
    if "\ncalls,3344,03344,differs\n" not in works("recount", MONTH, "--against", "-", "--csv", given=true.replace(",3344", ",03344"), status=1).decode():
        yield "a number that is written otherwise differs by +0"
    part = saved("part.csv", "figure,value\ncalls,3344\n")
    works("recount", MONTH, "--against", part, "--partial")
    works("recount", MONTH, "--against", part, status=1)
    yield from ends(2, "--partial needs --against", "recount", MONTH, "--partial")


def report_faults(_root):
    """A report that is none is told with its line."""
    reports = [
        (b"", "the file is empty"), (b"\xff\xfe", "line 1: this is not text"), (b"a,b\n", "line 1: a report begins with"),
        (b"figure,value\ncals,1\n", "line 2: there is no figure `cals`"), (b"figure,value\ncalls\n", "line 2: two fields are needed"),
        (b"figure,value\ncalls,1\n\ncalls,1\n", "line 4: the figure `calls` is given twice"),
        (b'figure,value\n"calls,1\n', "line 2: a quote is not closed"), (MONTH.read_bytes(), "this is not text"),
    ]
    for data, said in reports:
        yield from ends(3, said, "recount", MONTH, "--against", saved("report.csv", data))
    yield from ends(4, "there is no such file", "recount", MONTH, "--against", WORK / "nowhere.csv")


def report(figures):
    """A report of these figures."""
    return "figure,value\n" + "".join(f"{name},{value}\n" for name, value in figures.items())


def spoilt(name, value):
    """The day's report with another value of one figure."""
    given = f"\n{name},{BALANCE[name]}\n"
    whole = (HERE / "examples/day.csv").read_text(encoding="utf-8")
    if whole.count(given) != 1:
        raise ValueError(f"examples/day.csv has no {name} of {BALANCE[name]}")
    return whole.replace(given, f"\n{name},{value}\n")


def equation(raised, active, cleared, expired):
    """A balance that holds, as it is printed."""
    return f"raised {raised} = active at end {active} + cleared {cleared} + expired {expired}."


def entry(raised, active, cleared, expired, holds):
    """A balance as JSON has it."""
    return {"raised": raised, "active_at_end": active, "cleared": cleared, "expired": expired, "holds": holds}


def balanced(_root):
    """Every page ends with the balance, that of the raw calls before that of the report; JSON has both, and CSV neither."""
    day, month = equation(8, 2, 5, 1), equation(11, 4, 7, 0)
    for calls, figures in ((DAY, day), (MONTH, month)):
        if not works("recount", calls).decode().endswith(f"\n\nBalance of the raw calls: {figures}\n"):
            yield f"the page of {calls.name} does not end with {figures}"
    out = works("recount", DAY, "--against", "examples/day.csv").decode()
    if not out.endswith(f"raw calls.\nBalance of the raw calls: {day}\nBalance of examples/day.csv: {day}\n"):
        yield f"the page of a report does not end with both balances: {out[-300:]}"
    counted = entry(8, 2, 5, 1, True)
    alone, both = (json.loads(works("recount", DAY, *words, "--json")) for words in ([], ["--against", "examples/day.csv"]))
    if list(alone) != ["figures", "balance"] or alone["balance"] != {"raw_calls": counted}:
        yield f"JSON of the raw calls has {alone['balance']}"
    if list(both) != ["equal", "differing", "figures", "balance"] or both["balance"] != {"raw_calls": counted, "report": counted}:
        yield f"JSON of a report has {both['balance']}"
    for words in ([], ["--against", "examples/day.csv"]):
        if b"alance" in works("recount", DAY, *words, "--csv"):
            yield f"CSV has a balance, with {words}"


def refused_and_expired(_root):
    """Refusals count nothing, whatever their reason, and expired alarms all; each figure here is counted by hand."""
    raised = "2026-03-14 09:0{} raise id={} type=t severity=minor cause=lease-lost object=tenant({})".format
    clear = "2026-03-14 09:05 clear type=t cause=lease-lost object=tenant(b)"
    # raised, updated, an active id (31), raised, one too many, no operation (23), all but one expired, cleared, without active,
    # raised twice, a list that is too long for its slice (30), both expired, raised
    calls = [
        raised(0, "a", "a"), raised(1, "b", "a"), raised(1, "a", "b"), raised(2, "b", "b"), raised(3, "c", "c"), "raw 00",
        "expire before 2026-03-14 09:02", clear, clear, raised(6, "d", "d"), raised(7, "e", "e"), "active", "summary",
        "expire before 2026-03-14 09:08", raised(9, "f", "f"),
    ]
    for room, figures, refused in (("1552", equation(5, 1, 1, 3), 3), ("1551", equation(0, 0, 0, 0), 14)):
        text = "\n".join(["limits active=2 history=3 audit=1", f"answer {room}", *calls]) + "\n"
        listed = saved("balance.calls", works("write", "-", given=text))
        out = works("recount", listed).decode()
        if not out.endswith(f"\nBalance of the raw calls: {figures}\n"):
            yield f"with slices of {room}: {out.splitlines()[-1]}"
        if f"\nrefused,{refused}\n" not in works("recount", listed, "--csv").decode():
            yield f"with slices of {room} not {refused} calls are refused"


def unbalanced(_root):
    """Where one of its four figures is changed a report does not balance: its last line says so, and standard error in every form."""
    sentences = {
        "raised": "raised 9, but active at end 2 + cleared 5 + expired 1 = 8",
        "active at end": "raised 8, but active at end 3 + cleared 5 + expired 1 = 9",
        "cleared": "raised 8, but active at end 2 + cleared 6 + expired 1 = 9",
        "expired": "raised 8, but active at end 2 + cleared 5 + expired 2 = 9",
    }
    for name, sentence in sentences.items():
        changed = {**BALANCE, name: BALANCE[name] + 1}
        for given, partial in ((spoilt(name, changed[name]), []), (report(changed), ["--partial"])):
            said = f"standard input does not balance: {sentence}"
            page, table, whole = (tells(1, said, "recount", DAY, "--against", "-", *partial, *form, given=given).decode() for form in FORMS)
            if not page.endswith(f"{equation(8, 2, 5, 1)}\nNO BALANCE in standard input: {sentence}.\n"):
                yield f"{name}: the page ends with {page[-200:]}"
            if f"\n{name},{BALANCE[name]},{changed[name]},+1\n" not in table:
                yield f"{name}: CSV is {table}"
            if json.loads(whole)["balance"] != {"raw_calls": entry(8, 2, 5, 1, True), "report": entry(*changed.values(), False)}:
                yield f"{name}: JSON has {json.loads(whole)['balance']}"
    nobody, output = os.pipe()
    os.close(nobody)
    words = [STATION, "recount", DAY, "--against", "-"]
    done = subprocess.run(words, input=spoilt("raised", 9).encode(), stdout=output, stderr=subprocess.PIPE)
    os.close(output)
    if done.returncode != 1 or done.stderr.decode() != f"station: standard input does not balance: {sentences['raised']}\n":
        yield f"where nobody reads the page the status is {done.returncode}, and standard error says {done.stderr!r}"


def left_out(_root):
    """What a report leaves out is 0 in its balance; with --partial it is not claimed, and nothing fails for it."""
    part = report({"active at end": 2, "calls": 32})
    words = ["recount", DAY, "--against", "-"]
    page = works(*words, "--partial", given=part).decode()
    line = "Balance of standard input, not claimed: raised left out, active at end 2, cleared left out, expired left out."
    if " ".join(page.splitlines()[-2:]) != line:
        yield f"a part's page ends with {page[-200:]}"
    whole = json.loads(works(*words, "--partial", "--json", given=part))
    if whole["balance"]["report"] != entry(None, 2, None, None, None):
        yield f"a part's JSON has {whole['balance']}"
    said = "standard input does not balance: raised 0 (left out), but active at end 2 + cleared 0 (left out) + expired 0 (left out) = 2"
    whole = json.loads(tells(1, said, *words, "--json", given=part))
    if whole["balance"]["report"] != entry(0, 2, 0, 0, False):
        yield f"what is left out is not 0: {whole['balance']}"
    page = works(*words, given=report({"calls": 32}), status=1).decode()
    if " ".join(page.splitlines()[-2:]) != f"Balance of standard input: {equation(*['0 (left out)'] * 4)}":
        yield f"a report without the four figures ends with {page[-200:]}"


def no_numbers(_root):
    """A value that is no number, or too long a one, does not balance; it steers no terminal and makes no page too wide."""
    words = ["recount", DAY, "--against"]
    shown = {"many": "many", "-1": "-1", "1.5": "1.5", "+8": "+8", "": "", "a\x1b[31mb\u202e": r"a\u{1b}[31mb\u{202e}", "8" * 39: "8" * 39}
    for value, text in shown.items():
        given, why = spoilt("raised", value), "too long" if value.isdigit() else "no natural number"
        sentence = f'raised "{text}" ({why}), active at end 2, cleared 5, expired 1'
        page, _, whole = (tells(1, f"standard input does not balance: {sentence}", *words, "-", *form, given=given) for form in FORMS)
        if " ".join(page.decode().split("NO BALANCE in standard input:")[-1].split()) != f"{sentence}.":
            yield f"{value!r}: the page ends with {page.decode()[-200:]}"
        yield from too_wide(repr(value), page, PAGE_WIDTH)
        if json.loads(whole)["balance"]["report"] != entry(value, 2, 5, 1, False):
            yield f"{value!r}: JSON has {json.loads(whole)['balance']}"
    least = str(-2**127)
    said = f'standard input does not balance: raised "{least}" (no natural number), active at end 2, cleared 5, expired 1'
    if f"\nraised,8,{least},differs\n" not in tells(1, said, *words, "-", "--csv", given=spoilt("raised", least)).decode():
        yield f"the difference to {least} is told"


def long_lines(_root):
    """The longest numbers are added up, and a line that is wider than the page is broken, behind a long name first."""
    words = ["recount", DAY, "--against"]
    most = "9" * 38
    works(*words, saved("most.csv", report({"raised": most, "active at end": most})), status=1)
    sentence = f"raised 8, but active at end {most} + cleared {most} + expired {most} = 2{most[1:]}7"
    path = saved("n" * 60 + ".csv", report({**dict.fromkeys(BALANCE, most), "raised": 8}))
    page = tells(1, f"{path} does not balance: {sentence}", *words, path)
    if not " ".join(page.decode().split()).endswith(f"NO BALANCE in {path}: {sentence}."):
        yield f"the longest numbers: the page ends with {page.decode()[-400:]}"
    page = works(*words, saved("n" * 60 + ".csv", report(BALANCE)), status=1).decode()
    if page.splitlines()[-1] != equation(8, 2, 5, 1):
        yield f"behind a long name the last line is {page.splitlines()[-1]}"


CHECKS = {
    "reports are recounted": recounted,
    "faults of reports": report_faults,
    "pages end with the balance": balanced,
    "refused calls and expired alarms in the balance": refused_and_expired,
    "a report that does not balance is told": unbalanced,
    "the balance of part of a report": left_out,
    "the balance of what is no number": no_numbers,
    "the balance on long lines": long_lines,
}
