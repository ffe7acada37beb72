"""Runs of like clauses: RUN neighbouring clauses or more of one definition or lemma that have the same right side. One
clause for all other cases, a catch-all, says the same in one line, and a new constructor then needs no clause there.

A right side that names what a constructor of the left side holds is no such case. KEPT are runs that stay: the prover
checks a catch-all once for each case that the clauses before it leave, so it fails if such a case has to be taken apart
further. OPEN are runs that a catch-all could say. Each is tried when its crate is proved again for another reason.
"""
from __future__ import annotations

import re
from typing import Iterator

from sources import files, is_answer, lines_of, without_comment

Clause = tuple[int, int, str, str, str]

RUN = 6
NAME = re.compile(r"\s*([A-Za-z][\w'-]*)(?=\s)")
IDENTIFIER = re.compile(r"[^\W\d][\w']*")
HELD = re.compile(r"[({][^(){}]*(?:[({][^(){}]*(?:[({][^(){}]*[)}][^(){}]*)*[)}][^(){}]*)*[)}]")

# the file, and the names
KEPT = {
    "sp_verify_areas/proofs/PlaceLaws": "ends_by",
    "sp_front/proofs/Expressions": "channel_sort",
    "sp_front/proofs/Grammatical": "call_split",
    "sp_front/proofs/IndexNumbers": "call_numbered",
    "sp_front/proofs/Names": "call_is_none",
    "sp_format/proofs/SameTree": "build_like",
    "sp_tree/proofs/Looks": "look_simple look_expression",
    "sp_code/proofs/Holders": "entered_aims joins_of",
    "sp_lines/proofs/StopMarks": "selects is_write is_reading",
    "sp_lines/proofs/Waits": "message_kept",
    "sp_link/proofs/Histories": "fewer",
    "sp_link/proofs/StraightCode": "write_straight",
    "sp_race/proofs/NoteLaws": "twice",
    "sp_verify_rules/proofs/Along": "received_awaits on",
    "sp_verify_rules/specs/Touches": "stored_by",
    "sp_words/proofs/Levels": "none_arranged given_arranged",
}
OPEN = {
    "sp_code/proofs/CodePositions": "right_stands",
    "sp_code/specs/CodeOfTree": "RightAt",
    "sp_code/specs/Ranks": "ways",
    "sp_codefile/proofs/InstrLaws": "operands_small",
    "sp_codegen/proofs/AssignSteps": "assign_makes",
    "sp_codegen/proofs/OperatorValues": "input_gives",
    "sp_codegen/proofs/PureCode": "right_pure",
    "sp_codegen/proofs/Turn": "go",
    "sp_codegen/proofs/TurnsEnd": "Ended",
    "sp_verify_effects/proofs/EdgeRows": "is_passed",
    "sp_verify_effects/proofs/FactSets": "effect_is",
    "sp_execute/proofs/DeadlockWaiters": "to_send to_receive one_more",
    "sp_front/proofs/Expressions": "reference_fine",
    "sp_front/proofs/InScope": "constant_found",
    "sp_front/proofs/NameStatements": "assign_in go",
    "sp_front/proofs/Names": "function_in",
    "sp_front/proofs/StandardCalls": "reads_fine opens_fine receives_fine",
    "sp_front/proofs/TypesThere": "field_in_there",
    "sp_front/proofs/UsesFormed": "right_uses",
    "sp_front/specs/NonEmptyRecords": "IsNonEmptyKind",
    "sp_format/proofs/Neat": "row_neat",
    "sp_generate/proofs/Forms": "form_count",
    "sp_generate/proofs/StatementCode": "form_way",
    "sp_tree/proofs/Completes": "finish",
    "sp_verify_rules/proofs/Contents": "share_back",
    "sp_code/proofs/Families": "some_left",
    "sp_code/proofs/Orders": "orderly_fewer",
    "sp_code/proofs/OutProcesses": "fewer_out",
    "sp_journal/proofs/Walk": "event_birth",
    "sp_kernel/proofs/SortedWaiters": "with_more",
    "sp_kernel/specs/Ends": "left_in",
    "sp_lines/proofs/StatementMarks": "form_stands",
    "sp_link/proofs/Fronts": "grows_event",
    "sp_link/proofs/Histories": "to_send to_receive",
    "sp_link/proofs/Ranks": "field_straight",
    "sp_link/proofs/Replay": "one_event",
    "sp_link/proofs/DeclaredUses": "right",
    "sp_link/proofs/SortedWaiters": "by",
    "sp_race/proofs/NotesFrames": "notes_swap",
    "sp_replay/proofs/LiveRoots": "awaits",
    "sp_report/specs/Census": "is_counted",
    "sp_verify_rules/proofs/AnswerRow": "ends_there is_straight straight_on",
    "sp_verify_rules/proofs/Effects": "stored_have",
    "sp_verify_rules/proofs/Safety": "received_room",
    "sp_verify_rules/proofs/Turns": "one_fits",
    "sp_verify_rules/specs/Verdict": "is_stop",
    "sp_runner/proofs/SlotWaiters": "one_waits",
    "sp_varsets/proofs/OneText": "form_numbers",
    "sp_verify_shapes/specs/Remainders": "admits",
    "sp_witness/proofs/Forwards": "next_on",
    "sp_witness/proofs/TableNumbers": "by",
    "sp_witness/specs/TableNumbers": "table_after",
    "superpascal/proofs/CodeFiles": "numbered_back",
}


def clauses(path: str) -> Iterator[Clause]:
    """The clauses of a file: each with its line and its depth, its name, and its left and right side."""
    lines = [without_comment(line, path) for line in lines_of(path)]
    number = 0
    while number < len(lines):
        line, end = lines[number], number + 1
        depth = len(line) - len(line.lstrip())
        while line.strip() and end < len(lines) and lines[end].strip() and \
                len(lines[end]) - len(lines[end].lstrip()) > depth:
            end += 1
        text, name = " ".join(part.strip() for part in lines[number:end]), NAME.match(line)
        left, is_clause, right = text.partition(" = ")
        if name and is_clause:
            yield number + 1, depth, name.group(1), left, right
        else:
            yield number + 1, depth, "", "", ""
        number = end if name and is_clause else number + 1


def can_be_one(left: str, right: str) -> bool:
    """Whether the right side names nothing that a constructor of the left side holds."""
    held = {word for group in HELD.findall(left) for word in IDENTIFIER.findall(group)}
    return not held & set(IDENTIFIER.findall(right))


def runs(path: str) -> Iterator[tuple[int, str, int]]:
    """The runs of a file: the line of the first clause, the name, and how many clauses there are."""
    run: list[Clause] = []
    for clause in [*clauses(path), (0, 0, "", "", "")]:
        if run and (clause[1], clause[2], clause[4]) != (run[0][1], run[0][2], run[0][4]):
            if len(run) >= RUN and run[0][2] and all(can_be_one(each[3], each[4]) for each in run):
                yield run[0][0], run[0][2], len(run)
            run = []
        run.append(clause)


def findings() -> Iterator[str]:
    """A line for each run that is in no table, and for each entry of the tables that is not a run any more."""
    listed = {(file, name) for table in (KEPT, OPEN) for file, names in table.items() for name in names.split()}
    met = set()
    for path in files():
        if not path.endswith(".antt") or "/proofs/" in path and is_answer(path):
            continue
        for number, name, count in runs(path):
            key = path.removeprefix("crates/").removesuffix(".antt"), name
            met.add(key)
            if key not in listed:
                yield "%s: %d: %d clauses of %s are alike: can one say it for all?" % (path, number, count, name)
    for file, name in sorted(listed - met):
        yield "checks/runs.py: no run any more: %s of %s" % (name, file)
