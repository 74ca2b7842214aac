#!/usr/bin/env python3
"""Brings the names that specs/ and proofs/ define to today's spelling: words in snake case, types in camel case. Run once, behind the kit's port.py; docs/PORT.md says when.

usage: tools/respell.py [FOLDER]
Strings of the programs, functions of src/, C names, inputs and outputs keep their names.
"""
import re
import sys
from pathlib import Path

# A name as antt reads one: what stands between these is one name.
WORD = re.compile(r"[^\s(){}.;,λ\"`⌜⌝∷×→|\[\]]+")
DEFINED = re.compile(r"^\s*(?:(?:abbrev|unfoldable|pub|record|data) )*([^\s:(){}.;,λ\"]+)(?: [({].*)? : ")
DECLARED = re.compile(r"^\s*(?:pub )?(?:record|data) (?:pub )?(\S+)")
FACTS = {"no17": "No17", "no12": "No12"}
# The fact of crates/console, whose name other crates have for a field: turned where that definition is meant alone.
CONSOLE = ("console", "recovering", "replay_files", "playing", "unwrapping", "wrapping")
# Lemmas and locals that a definition's new name would fall together with.
LEMMAS = "all_in all_shown cut_by end_line ended_by given_by goes_on head_read ids_at left_over lies_in listed_by one_more some_left tail_of".split()
# What the kit's port.py had turned already: for the edits and the pages, which it leaves.
TURNED = """afterTurn:after_turn andThen:and_then answerOf:answer_of arrayOf:array_of atMost:at_most callOf:call_of carriedOf:carried_of caseOf:case_of
choiceOf:choice_of classOf:class_of countOf:count_of cutOf:cut_of endIn:end_in endOf:end_of enteredIn:entered_in entryOf:entry_of fieldAt:field_at
fieldOf:field_of fieldsOf:fields_of firstOf:first_of firstOr:first_or formOf:form_of givenOf:given_of headOf:head_of idAt:id_at idOf:id_of
idsOf:ids_of in-order:in_order inRow:in_row isAt:is_at isBare:is_bare itemAt:item_at itemOf:item_of itemsIn:items_in itemsOf:items_of lastOf:last_of
leftOf:left_of lengthOf:length_of liesAt:lies_at lineAt:line_at lineOf:line_of linesOf:lines_of listOf:list_of logsOf:logs_of mayRead:may_read
mayWrite:may_write namedBy:named_by noField:no_field none-left:none_left none-yet:none_yet numberAt:number_at numberIn:number_in numberOf:number_of
offsetOf:offset_of only-then:only_then ownOf:own_of pairOf:pair_of piecesOf:pieces_of placeIn:place_in placeOf:place_of placedAt:placed_at
placesOf:places_of readingOf:reading_of record-of:record_of restOf:rest_of roomFor:room_for runFrom:run_from runOf:run_of saidAll:said_all
sameList:same_list saysOf:says_of shapeOf:shape_of sideOf:side_of sizeOf:size_of spanOf:span_of spotOf:spot_of startOf:start_of startsWith:starts_with
sumOf:sum_of tableOf:table_of takenOf:taken_of textOf:text_of typeOf:type_of valueOf:value_of valuesOf:values_of vectorsOf:vectors_of viewOf:view_of
withTurn:with_turn writerOf:writer_of"""


def snake(name):
    return re.sub(r"(?<=[a-z0-9₀-₉])([A-Z])", lambda m: "_" + m.group(1).lower(), name)


def defined(root):
    """The names that the definitions of specs/ and the lemmas of proofs/ have, each with the folders where it is defined."""
    found = {}
    for path in sorted(root.glob("crates/*/*/**/*.antt")):
        kind = path.relative_to(root).parts[2]
        if kind not in ("specs", "proofs"):
            continue
        for line in path.read_text(encoding="utf-8").splitlines():
            if line.lstrip().startswith("--"):
                continue
            for form in (DEFINED, DECLARED):
                m = form.match(line)
                if m:
                    found.setdefault(m.group(1), set()).add(kind)
    return found


def table(root):
    """Old names and new ones: camel case to snake case everywhere, and a dash to an underscore in the names of specs/."""
    turned = {}
    for name, kinds in defined(root).items():
        if not name[0].islower():
            continue
        new = snake(name.replace("getD", "get_or"))
        if "specs" in kinds:
            new = new.replace("-", "_")
        if new != name and re.fullmatch(r"[\w₀-₉_-]+", name):
            turned[name] = new
    return turned | FACTS


def lemmas(root):
    """Gives the lemmas of LEMMAS their ending, before a definition takes the name."""
    for path in sorted(root.glob("crates/*/proofs/**/*.antt")):
        old = path.read_text(encoding="utf-8")
        new = re.sub(r"(?<![\w'·-])(?<!proofs\.)(%s)(?![\w'·-])" % "|".join(LEMMAS), lambda m: m.group(1) + "_lem", old)
        if new != old:
            path.write_text(new, encoding="utf-8")


def console(path, text):
    if path.parts[1] not in CONSOLE:
        return text
    return re.sub(r"(?<![\w'·.-])holds(?![\w'·-])", "Holds", text)


def page(text, turned):
    """A page: the names between backquotes."""
    return re.sub(r"`[^`\n]+`", lambda m: "`" + re.sub(r"[\w₀-₉]+(?:-[\w₀-₉]+)*", lambda w: turned.get(w.group(0), w.group(0)), m.group(0)[1:-1]) + "`", text)


def turn(text, turned):
    return WORD.sub(lambda m: turned.get(m.group(0), m.group(0)), text)


def turn_source(text, turned):
    """A .rt file: what stands between quotation marks is the program's own and stays. Names there have no dash: a dash between two words is a sign."""
    plain = {a: b for a, b in turned.items() if "-" not in a}
    dashed = {a: b for a, b in turned.items() if "-" in a}
    out = []
    for line in text.splitlines(keepends=True):
        ghost = "ghost use" in line or re.match(r"\s*(requires|ensures)\b", line) or "≡" in line or "⊎" in line
        parts = re.split(r'("(?:[^"\\]|\\.)*")', line)
        for i in range(0, len(parts), 2):
            parts[i] = re.sub(r"[A-Za-z_][\w₀-₉]*", lambda m: plain.get(m.group(0), m.group(0)), parts[i])
            if ghost:
                parts[i] = turn(parts[i], dashed)
        out.append("".join(parts))
    return "".join(out)


def main(argv):
    root = Path(argv[0] if argv else ".")
    lemmas(root)
    turned = table(root)
    before = dict(w.split(":") for w in TURNED.split())
    for path in sorted(root.glob("crates/*/**/*")):
        here = path.relative_to(root)
        if "out" in here.parts or path.suffix not in (".antt", ".rt", ".edit"):
            continue
        old = path.read_text(encoding="utf-8")
        if path.suffix == ".antt":
            new = console(here, turn(old, turned))
        elif path.suffix == ".rt":
            new = console(here, turn_source(old, turned))
        else:
            new = re.sub(r"(?m)^(?:old|new):.*$", lambda m: turn(turn(m.group(0), before), turned), old)
        if new != old:
            path.write_text(new, encoding="utf-8")
    for path in [root / "README.md", *sorted(root.glob("docs/**/*.md"))]:
        old = path.read_text(encoding="utf-8")
        new = page(old, before | turned)
        if new != old:
            path.write_text(new, encoding="utf-8")
    for a, b in sorted(turned.items()):
        print(a, b)


if __name__ == "__main__":
    main(sys.argv[1:])
