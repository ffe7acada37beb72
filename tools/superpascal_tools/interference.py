"""The rules of interference in words: who shares which variable with whom, at which places and by which calls."""
from __future__ import annotations

from typing import Callable, NamedTuple

from .outline import Outline
from .scopes import Name, Scope
from .tokens import Place
from .uses import Reached, Uses


class Said(NamedTuple):
    """The words of the first line, the lines of help after the line of the program, and what is at other places."""

    words: str
    more: list[str]
    others: tuple[tuple[Place, str], ...] = ()


OWN = ["Give each process statement a variable of its own, or let one own it and send its value to the others."]
WHOLE = "A position of an array stands for the whole array: give each process a copy (examples/quicksort.sp)."
ONE_READS = "Only one process statement may read, and only one may write: let the others send to it."


def interference(outline: Outline, rule: str, place: Place) -> Said:
    """The cause of I1 to I9 at a place."""
    found = RULES[rule](outline, Uses(outline), place) if rule in RULES else None
    return found or Said(outline.findings.get((rule, place), ""), [])


def by_name(outline: Outline, those: set[Name]) -> list[Name]:
    """Variables in the order of their declarations; the input and the output first."""
    return sorted(those, key=lambda it: (it not in (outline.input, outline.output), it.place, it.name))[:6]


def at(place: Place) -> str:
    """A place as it is written."""
    return "%d:%d" % place


def between_processes(outline: Outline, uses: Uses, place: Place) -> Said | None:
    """I1: the first earlier process statement that shares with the later one, and what they share."""
    for parallel, parts in outline.parallels:
        for later, (first, last) in enumerate(parts):
            if later and outline.tokens[first].place == place:
                mine = uses.reached(first, last)
                for earlier in range(later):
                    said = clashes(outline, uses, (earlier, uses.reached(*parts[earlier])), (later, mine))
                    if said:
                        return said._replace(more=["In the parallel at %s:" % at(parallel)] + said.more)
    return None


def clashes(outline: Outline, uses: Uses, one: tuple[int, Reached], other: tuple[int, Reached]) -> Said | None:
    """What two process statements share, and how each comes to it."""
    here, there = one[1], other[1]
    used = {variable for variable, _ in here} & {variable for variable, _ in there}
    those = by_name(outline, {it for it in used if (it, True) in here or (it, True) in there})
    if not those:
        return None
    lines, first = [], those[0]
    for variable in those:
        parts = []
        for number, reached in (one, other):
            key = (variable, (variable, True) in reached)
            parts.append("process statement %d %s" % (number + 1, uses.told(key, reached[key])))
        lines.append("; ".join(parts) + ".")
    ways = [uses.short((first, (first, True) in reached), reached) for _, reached in (one, other)]
    words = "process statements %d and %d share %s: %d %s, %d %s" % (
        one[0] + 1, other[0] + 1, first.name, one[0] + 1, ways[0], other[0] + 1, ways[1])
    others = [elsewhere("process statement %d" % (number + 1), uses, (first, (first, True) in reached), reached)
              for number, reached in (one, other)]
    streams = (outline.input, outline.output)
    if any(it in streams for it in those):
        lines.append(ONE_READS)
    if any(it not in streams for it in those):
        arrays = any(it.kind is not None and it.kind.form == "array" for it in those)
        lines.extend(OWN + [WHOLE] if arrays else OWN)
    return Said(words, lines, tuple(others))


def elsewhere(who: str, uses: Uses, key: tuple[Name, bool], reached: Reached) -> tuple[Place, str]:
    """A place, and what is done there."""
    return reached[key].place, "%s %s" % (who, uses.brief(key, reached))


def of_forall(outline: Outline, uses: Uses, place: Place) -> Said | None:
    """I2: what the element statement changes."""
    for forall, tokens in outline.foralls:
        if forall == place:
            reached = uses.reached(*tokens)
            those = by_name(outline, {variable for variable, target in reached if target})
            if those:
                key = (those[0], True)
                lines = ["The element statement %s." % uses.told((it, True), reached[it, True]) for it in those]
                return Said("each process of this forall %s" % uses.short(key, reached), lines + [
                    "Let each process send its result on a channel of its own, to a process beside the forall that "
                    "puts them together."], (elsewhere("each process", uses, key, reached),))
    return None


def of_loop(outline: Outline, uses: Uses, place: Place) -> Said | None:
    """I3: where the body changes the `for` variable."""
    for begun, variable, tokens in outline.loops:
        reached = uses.reached(*tokens)
        if begun == place and (variable, True) in reached:
            key = (variable, True)
            return Said("the body of this for %s" % uses.short(key, reached), [
                "The body %s." % uses.told(key, reached[key])], (elsewhere("the body", uses, key, reached),))
    return None


def of_parameters(outline: Outline, _uses: Uses, place: Place) -> Said | None:
    """I4: the two arguments that are one variable."""
    for block, actuals in outline.actuals:
        for number, (here, variable) in enumerate(actuals):
            for earlier, other in actuals[:number]:
                if here == place and other is variable:
                    return Said("%s is given to two variable parameters of %s: at %s and here" % (
                        variable.name, block.name, at(earlier)), ["Its heading, line %d: %s" % (
                            block.place[0], block.heading)], ((earlier, "the same variable"),))
    return None


def of_implicit(outline: Outline, uses: Uses, place: Place) -> Said | None:
    """I5: how the called procedure comes to the variable that is given to it."""
    for block, actuals in outline.actuals:
        for here, variable in actuals:
            for target in (True, False):
                way = uses.implicit[block].get((variable, target))
                if here == place and way is not None:
                    return Said("%s is given to %s, which itself %s" % (
                        variable.name, block.name, uses.told((variable, target), way)),
                        ["A procedure uses a variable by its own name or by a parameter, not by both."],
                        (elsewhere(block.name, uses, (variable, target), uses.implicit[block]),))
    return None


def of_recursion(outline: Outline, uses: Uses, place: Place) -> Said | None:
    """I6: what a procedure that calls itself uses from around it."""
    outer = (outline.input, outline.output)
    return implied(outline, uses, place, lambda it, target: it not in outer, "%s calls itself and %s", [
        "Give it the variable as a parameter: what calls itself uses nothing from around it except input and output."])


def of_function(outline: Outline, uses: Uses, place: Place) -> Said | None:
    """I8: what a function changes."""
    return implied(outline, uses, place, lambda it, target: target, "the function %s %s, which is not its own", [
        "A function only gives its result: use a procedure with a variable parameter."])


def implied(outline: Outline, uses: Uses, place: Place, wanted: Callable[[Name, bool], bool], words: str,
            more: list[str]) -> Said | None:
    """The implicit variables of a block that are wanted."""
    for block in outline.blocks:
        reached = uses.implicit[block]
        those = by_name(outline, {it for it, target in reached if wanted(it, target)})
        if block.place == place and those:
            keys = [(it, (it, True) in reached) for it in those]
            lines = ["It %s." % uses.told(key, reached[key]) for key in keys]
            return Said(words % (block.name, uses.short(keys[0], reached)), lines + more,
                        (elsewhere(block.name, uses, keys[0], reached),))
    return None


def of_actions(outline: Outline, uses: Uses, place: Place) -> Said | None:
    """I9: the statement that a function may not have, and the calls that lead to it."""
    for number, word in outline.actions:
        if outline.tokens[number].place == place:
            return Said("a function may not have %s" % word, ["Use a procedure with a variable parameter."])
    for number, block in outline.called:
        if outline.tokens[number].place == place:
            way = way_to_action(outline, uses, block, set())
            return Said("%s, which this function calls, has %s" % (block.name, way), [
                "A function and what it calls have no processes, channels, input or output."]) if way else None
    return None


def way_to_action(outline: Outline, uses: Uses, block: Scope, seen: set[Scope]) -> str:
    """The first statement of a block, or of what it calls, that a function may not have."""
    seen.add(block)
    for number, word in outline.actions:
        if block.first <= number < block.last:
            return "%s at %s" % (word, at(outline.tokens[number].place))
    for place, callee in uses.calls_in(block.first, block.last):
        if callee not in seen:
            way = way_to_action(outline, uses, callee, seen)
            if way:
                return "a call of %s at %s, which has %s" % (callee.name, at(place), way)
    return ""


RULES: dict[str, Callable[[Outline, Uses, Place], "Said | None"]] = {
    "I1": between_processes, "I2": of_forall, "I3": of_loop, "I4": of_parameters, "I5": of_implicit,
    "I6": of_recursion, "I8": of_function, "I9": of_actions,
}
