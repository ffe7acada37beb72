"""Code files of two growing sizes, up to the length that a code file may have: the module of tests/hostile for codes.

`FILES` has for each name what makes the bytes of its code file. Each one has sizes that multiply if the verifier keeps
something for each pair: blocks and the variables that they come to store, calls and operands, children and lists, and
so on. `OPEN` has those for which it still does. The first line of each generator says whether the file is accepted.
"""
LIMIT = 67_108_864
MOST = 1_048_576
HEAD = "superpascal code 1\n"


def layout(block, entry, parent, sizes=(), variables=(), formals=(), answer=False):
    """The line of a layout."""
    words = ["layout", block, entry, parent, "answer" if answer else "none", "sizes", *sizes, "variables", *variables,
             "formals", *formals]
    return " ".join(map(str, words)) + "\n"


def child(table, number, entry, moves=(), shares=(), index=None):
    """The line of a child of a table."""
    words = ["table", table, "child", number, "entry", entry, "moves", *moves, "shares", *shares]
    if index is not None:
        words += ["index", index]
    return " ".join(map(str, words)) + "\n"


def code(layouts, instrs, tables=(), texts=()):
    """The bytes of a code file."""
    lines = [f"{at} {instr}\n" for at, instr in enumerate(instrs)]
    return "".join([HEAD, *layouts, *texts, *lines, *tables]).encode()


def blocks_and_outer(blocks=4_096, variables=4_096, calls=250_000):
    """Accepted: blocks that all come to store all of these variables of the program, by n calls of blocks after
    them; the last block stores them itself, one call to the next one begins each block."""
    layouts = [None]
    instrs, entries = ["call 1 0", "end"], []
    each = calls // blocks
    for block in range(1, blocks + 1):
        entries.append(len(instrs))
        if block == blocks:
            for x in range(variables):
                instrs += [f"addr 1 {x + 2}", "const 1", "store"]
        else:
            instrs += [f"call {block + 1 + k * 61 % (blocks - block)} 1" for k in range(each)]
        instrs.append("return")
    layouts = [layout(0, 0, "-", [1] * variables, range(2, variables + 2))]
    layouts += [layout(block + 1, entry, 0) for block, entry in enumerate(entries)]
    return code(layouts, instrs)


def chain_of_stores(first, blocks, order=None, parent=0, place=2, number=2, variables=None):
    """The instructions of a chain of blocks from this instruction on, and their layouts. Block k has this number + k,
    stores the variable at this place + k of the block around it (modulo the number of variables, if it is given), and
    calls the next block. They stand in this order."""
    instrs, entries = [], {}
    for k in order or range(blocks):
        entries[k] = first + len(instrs)
        variable, after = place + k % (variables or blocks), (k + 1) % blocks + number
        instrs += [f"addr 1 {variable}", "const 1", "store", f"call {after} 1", "return"]
    return instrs, [layout(k + number, entries[k], parent) for k in range(blocks)]


def chain_of_blocks(blocks=190_000):
    """Accepted: each block stores a variable of the program of its own, and calls the next block."""
    instrs, layouts = chain_of_stores(2, blocks, number=1)
    layouts.insert(0, layout(0, 0, "-", [1] * blocks, range(2, blocks + 2)))
    return code(layouts, ["call 1 0", "end", *instrs])


def chain_below_child(blocks, handed, order=None, number=2):
    """The chain, called from a child that is handed the first variables, as many as this."""
    instrs, layouts = chain_of_stores(4, blocks, order, number=number)
    layouts.insert(0, layout(0, 0, "-", [1] * blocks, range(2, blocks + 2)))
    return code(layouts, ["fork 0", "end", f"call {number} 0", "end", *instrs], [child(0, 0, 2, range(2, handed + 2))])


def chain_in_child(blocks=190_000):
    """Accepted: the chain is called from a child that is handed all these variables, so a rule asks what each block
    does."""
    return chain_below_child(blocks, blocks, number=1)


def ring_of_blocks(blocks=4_096, variables=4_096):
    """Accepted: as the chain, where each block calls the ones before and after it, so all store all."""
    instrs, entries = ["call 1 0", "end"], []
    for block in range(1, blocks + 1):
        entries.append(len(instrs))
        instrs += [f"addr 1 {block % variables + 2}", "const 1", "store", f"call {block % blocks + 1} 1",
                   f"call {(block - 2) % blocks + 1} 1", "return"]
    layouts = [layout(0, 0, "-", [1] * variables, range(2, variables + 2))]
    layouts += [layout(block + 1, entry, 0) for block, entry in enumerate(entries)]
    return code(layouts, instrs)


def operands_of_calls(operands, calls, kinds, by_reference=False):
    """Accepted: n operands are pushed once, and one of n calls, to as many blocks, takes them."""
    instrs = [f"addr 0 {k + 2}" if by_reference else "const 1" for k in range(operands)]
    instrs.append("const 0")
    base = len(instrs)
    after = base + calls + 1
    for k in range(calls):
        instrs.append(f"casej {k} {after + 2 * k}")
    instrs.append(f"jump {after + 2 * calls}")
    done = after + 2 * calls + 2
    for k in range(calls):
        instrs += [f"call {k % kinds + 1} 0", f"jump {done}"]
    instrs += ["nocase", "call 1 0"]
    instrs.append("end")
    entries = []
    for _ in range(kinds):
        entries.append(len(instrs))
        instrs.append("return")
    assert len(instrs) <= MOST, len(instrs)
    width = "reference 1" if by_reference else "value 1"
    count = operands if by_reference else 0
    layouts = [layout(0, 0, "-", [1] * count, range(2, 2 + count))]
    new = 2 + count
    for block, entry in enumerate(entries):
        layouts.append(layout(block + 1, entry, 0, [1] * operands, range(new, new + operands), [width] * operands))
        new += operands
    return code(layouts, instrs)


def forks_in_forks(depth=2_000, variables=4_000):
    """Accepted: a fork in the child of a fork and so on, each of which moves the same variables."""
    instrs, tables = [], []
    for level in range(depth):
        tables.append(child(level, 0, 2 * level + 2, range(2, variables + 2)))
        instrs += [f"fork {level}", "end"]
    instrs += ["addr 0 2", "const 1", "store", "end"]
    return code([layout(0, 0, "-", [1] * variables, range(2, variables + 2))], instrs, tables)


def forks_and_calls(depth=2_000, variables=4_000, calls=400_000):
    """Accepted: the same, and each child calls blocks that store nothing."""
    instrs, tables, entries = [], [], []
    each = calls // depth
    for level in range(depth):
        instrs += [f"call {level % 100 + 1} 0"] * each
        instrs += [f"fork {level}", "end"]
        tables.append(child(level, 0, len(instrs), range(2, variables + 2)))
    instrs += ["addr 0 2", "const 1", "store", "end"]
    for _ in range(100):
        entries.append(len(instrs))
        instrs.append("return")
    layouts = [layout(0, 0, "-", [1] * variables, range(2, variables + 2))]
    layouts += [layout(block + 1, entry, 0) for block, entry in enumerate(entries)]
    return code(layouts, instrs, tables)


def lists_and_callers(variables=3_000_000, callers=180_000):
    """Accepted: a fork moves very many variables, and its block is called along a chain of blocks."""
    instrs, entries = ["call 1 0", "end"], []
    for block in range(1, callers + 1):
        entries.append(len(instrs))
        instrs += [f"call {block + 1} 1", "return"]
    entries.append(len(instrs))
    instrs += ["fork 0", "return", "end"]
    layouts = [layout(0, 0, "-", [1] * variables, range(2, variables + 2))]
    layouts += [layout(block + 1, entry, 0) for block, entry in enumerate(entries)]
    return code(layouts, instrs, [child(0, 0, len(instrs) - 1, range(2, variables + 2))])


def wide_frame(variables=6_300_000):
    """Accepted: as many variables as a file has room for. Its run is F12."""
    return code([layout(0, 0, "-", [1] * variables, range(2, variables + 2))], ["end"])


def nested_blocks(blocks=500_000):
    """Accepted: each block is inside the one before, and calls the next one."""
    instrs = ["call 1 0", "end"]
    layouts = [layout(0, 0, "-", [1], [2])]
    for block in range(1, blocks + 1):
        layouts.append(layout(block, len(instrs), block - 1))
        if block < blocks:
            instrs.append(f"call {block + 1} 0")
        instrs.append("return")
    return code(layouts, instrs)


def far_outward(blocks=200_000):
    """Accepted: each block, inside the one before, loads a variable of the program."""
    instrs = ["call 1 0", "end"]
    layouts = [layout(0, 0, "-", [1], [2])]
    for block in range(1, blocks + 1):
        layouts.append(layout(block, len(instrs), block - 1))
        instrs += [f"addr {block} 2", "load", "write int", "return"]
    return code(layouts, instrs)


def joins_of_stacks(operands=250_000, jumps=270_000):
    """Accepted: a deep stack that many jumps bring to one instruction."""
    instrs = ["const 1"] * operands
    end = operands + 2 * jumps
    for k in range(jumps):
        instrs += ["const 1", f"jumpf {end}"]
    # the operands go
    for _ in range(operands - 1):
        instrs.append("and")
    instrs += ["write int", "end"]
    return code([layout(0, 0, "-", [1], [2])], instrs)


def messages_of_types(kinds=250_000):
    """Accepted: sends of many message types."""
    instrs = []
    for k in range(kinds):
        instrs += ["addr 0 2", "loadc", "const 1", f"send {k}"]
    instrs.append("end")
    return code([layout(0, 0, "-", [1], [2])], instrs)


def many_children(children=1_000_000):
    """Accepted: a fork with as many children as there is code for."""
    instrs = ["fork 0", "end"] + ["end"] * children
    return code([layout(0, 0, "-", [1], [2])], instrs, [child(0, k, k + 2) for k in range(children)])


def many_tables(tables=500_000):
    """Accepted: forks one after another."""
    instrs = [f"fork {k}" for k in range(tables)] + ["end"] + ["end"] * tables
    return code([layout(0, 0, "-", [1], [2])], instrs, [child(k, 0, tables + 1 + k) for k in range(tables)])


def falling_fork(variables=1_000_000):
    """Accepted: a fork moves all variables, the last one first."""
    last = variables + 1
    return code([layout(0, 0, "-", [1] * variables, range(2, last + 1))], ["fork 0", "end", "end"],
                [child(0, 0, 2, range(last, 1, -1))])


def falling_shares(children=99_000):
    """Accepted: each child shares a variable of its own, the first child the last one."""
    last = children + 1
    return code([layout(0, 0, "-", [1] * children, range(2, last + 1))], ["fork 0", "end"] + ["end"] * children,
                [child(0, k, k + 2, shares=[last - k]) for k in range(children)])


def long_loops():
    """Refused by V9: jumps back over all of the code that pass no tick."""
    half = MOST // 2 - 1
    instrs = ["const 1", "jumpf 0"] * half + ["end"]
    return code([layout(0, 0, "-", [1], [2])], instrs)


def ticked_loops():
    """Accepted: loops in loops, each with its tick."""
    third = MOST // 3 - 1
    instrs = []
    for k in range(third):
        instrs += ["tick", "const 1", f"jumpf {max(0, len(instrs) - 6)}"]
    return code([layout(0, 0, "-", [1], [2])], instrs + ["end"])


def long_text():
    """Accepted: one string as long as a file may be."""
    return code([layout(0, 0, "-", [1], [2])], ["end"], [], ["text " + "61" * ((LIMIT - 200) // 2) + "\n"])


def many_texts():
    """Accepted: strings one by one."""
    return code([layout(0, 0, "-", [1], [2])], ["end"], [], ["text " + "61" * 28 + "\n"] * 1_000_000)


def large_root():
    """The run is F12: the frame of the program has 60,000,000 cells."""
    return code([layout(0, 0, "-", [60_000_000], [2])], ["end"])


def passed_along(blocks=2_000, formals=200):
    """Accepted: each block passes its variable parameters on to the next one, and the last one loads them."""
    instrs = [f"addr 0 {k + 2}" for k in range(formals)] + ["call 1 0", "end"]
    layouts, new = [layout(0, 0, "-", [1] * formals, range(2, formals + 2))], formals + 2
    for block in range(1, blocks + 1):
        layouts.append(layout(block, len(instrs), 0, [1] * formals, range(new, new + formals),
                              ["reference 1"] * formals))
        new += formals
        if block < blocks:
            instrs += [f"deref 0 {k}" for k in range(formals)] + [f"call {block + 1} 1", "return"]
        else:
            instrs += [word for k in range(formals) for word in (f"deref 0 {k}", "load", "write int")] + ["return"]
    return code(layouts, instrs)


def shuffled_chain(blocks=190_000):
    """Accepted: as chain_in_child, but the blocks stand in no order."""
    return chain_below_child(blocks, blocks, [k * 88_801 % blocks for k in range(blocks)])


def chain_in_children(blocks=150_000, others=150_000):
    """Accepted: two children are above the chain. Both are handed its variables, and each others besides."""
    instrs, layouts = chain_of_stores(7, blocks)
    count = blocks + 2 * others
    layouts.insert(0, layout(0, 0, "-", [1] * count, range(2, count + 2)))
    chain, middle = range(2, blocks + 2), blocks + others + 2
    tables = [child(0, 0, 3, [*chain, *range(blocks + 2, middle)]), child(1, 0, 5, [*chain, *range(middle, count + 2)])]
    return code(layouts, ["fork 0", "fork 1", "end", "call 2 0", "end", "call 2 0", "end", *instrs], tables)


def children_above_chain(children=40_000, blocks=100_000, width=150, whole=None):
    """Accepted: n children are above the chain. All are handed its variables, and each one besides. Those from number
    `whole` on are handed half of the variables."""
    starts = children + 1
    count = width + children
    instrs, layouts = chain_of_stores(starts + 2 * children, blocks, variables=width)
    layouts.insert(0, layout(0, 0, "-", [1] * count, range(2, count + 2)))
    tables = [child(k, 0, starts + 2 * k, [*range(2, 2 + (width if whole is None or k < whole else width // 2)),
                                           width + 2 + k]) for k in range(children)]
    forks = [f"fork {k}" for k in range(children)]
    return code(layouts, [*forks, "end", *["call 2 0", "end"] * children, *instrs], tables)


def children_half_handed():
    """Refused by V6: as above, where the children from the middle on are handed half of the variables."""
    return children_above_chain(whole=20_000)


def half_handed(blocks=190_000):
    """Refused by V6: a child above the chain is handed half of its variables."""
    return chain_below_child(blocks, blocks // 2)


def chain_in_answer(blocks=190_000):
    """Accepted: a block that answers is above the chain, which stores variables of this block."""
    instrs, layouts = chain_of_stores(5, blocks, parent=1, place=1)
    result = blocks + 2
    layouts[:0] = [layout(0, 0, "-"), layout(1, 3, 0, [1] * (blocks + 1), [result, *range(2, result)], answer=True)]
    return code(layouts, ["call 1 0", "write int", "end", "call 2 0", "return", *instrs])


def chain_by_reference(blocks=190_000):
    """Accepted: a block that takes a variable by reference is above the chain."""
    instrs, layouts = chain_of_stores(5, blocks)
    count = blocks + 1
    layouts[:0] = [layout(0, 0, "-", [1] * count, range(2, count + 2)),
                   layout(1, 3, 0, [1], [count + 2], ["reference 1"])]
    return code(layouts, [f"addr 0 {count + 1}", "call 1 0", "end", "call 2 1", "return", *instrs])


def chain_inside(blocks=190_000):
    """Accepted: a block that is called inside itself is above the chain, which stores variables of this block."""
    instrs, layouts = chain_of_stores(5, blocks, parent=1, place=0)
    layouts[:0] = [layout(0, 0, "-"), layout(1, 2, 0, [1] * blocks, range(2, blocks + 2))]
    return code(layouts, ["call 1 0", "end", "call 2 0", "call 1 1", "return", *instrs])


def chain_beyond_answer(blocks=190_000):
    """Refused by V8: a block that answers is above the chain, which stores variables of the program."""
    instrs, layouts = chain_of_stores(5, blocks)
    result = blocks + 2
    layouts[:0] = [layout(0, 0, "-", [1] * blocks, range(2, result)), layout(1, 3, 0, [1], [result], answer=True)]
    return code(layouts, ["call 1 0", "write int", "end", "call 2 1", "return", *instrs])


def chain_of_passed(blocks=100_000):
    """Refused by V7: a block that takes n variables by reference is above the chain, which stores these."""
    passed = [f"addr 0 {k + 2}" for k in range(blocks)]
    instrs, layouts = chain_of_stores(blocks + 4, blocks)
    formals = range(blocks + 2, 2 * blocks + 2)
    layouts[:0] = [layout(0, 0, "-", [1] * blocks, range(2, blocks + 2)),
                   layout(1, blocks + 2, 0, [1] * blocks, formals, ["reference 1"] * blocks)]
    return code(layouts, [*passed, "call 1 0", "end", "call 2 1", "return", *instrs])


def chain_of_owner(blocks=30_000):
    """Accepted: a block that has n variables passes each to a block that calls it again, and is above the chain,
    which stores these. No store comes to that block: the variables are those of the one that it calls."""
    passes = [word for k in range(blocks) for word in (f"addr 0 {k}", "call 2 0")]
    begins = 2 + len(passes) + 2
    instrs, layouts = chain_of_stores(begins + 2, blocks, parent=1, place=0, number=3)
    layouts[:0] = [layout(0, 0, "-"), layout(1, 2, 0, [1] * blocks, range(2, blocks + 2)),
                   layout(2, begins, 1, [1], [blocks + 2], ["reference 1"])]
    return code(layouts, ["call 1 0", "end", *passes, "call 3 0", "return", "call 1 2", "return", *instrs])


def two_cells_each(count, unfit):
    """The sizes of n variables, of two cells each; the last one has one cell if it is not to fit a formal of two."""
    return [2] * (count - 1) + [1 if unfit else 2]


def in_turn(kinds, count):
    """So many kinds: these, again and again."""
    return [kinds[k % len(kinds)] for k in range(count)]


def calls_of_lists(operands=100_000, calls=100_000, kinds=("reference 2",), unfit=False, writes=False, own=1,
                   again=False, in_child=False):
    """Accepted: n operands are pushed once, and each of n calls puts some of its own on top. The formals are of these
    kinds in turn, and no address has more cells than its own formal asks for. Or refused by V5: the operand of the last
    call has too few cells. Writes: the block that is called writes a number. Again: the topmost operand is the same for
    all calls. In child: a child that is handed all variables calls."""
    kinds = in_turn(kinds, operands)
    instrs = ["fork 0", "end"] if in_child else []
    instrs += [f"addr 0 {k + 2}" if "reference" in kind else "const 1" for k, kind in enumerate(kinds)] + ["const 0"]
    after, each = len(instrs) + calls + 1, own + 2
    done = after + each * (calls + 1)
    instrs += [f"casej {k} {after + each * k}" for k in range(calls)] + [f"jump {after + each * calls}"]

    def pushed(call):
        places = list(range(operands + 2 + own * call, operands + 2 + own * (call + 1)))
        if again:
            places[-1] = operands + own + 1
        return [f"addr 0 {x}" for x in places]

    for k in range(calls):
        instrs += [*pushed(k), "call 1 0", f"jump {done}"]
    body = ["const 1", "write int", "return"] if writes else ["return"]
    instrs += ["nocase", *pushed(0), "call 1 0", "end", *body]
    count = operands + own * calls
    formals = range(count + 2, count + operands + own + 2)
    sizes = [int(kind.split()[1]) for kind in kinds] + two_cells_each(own * calls, unfit)
    layouts = [layout(0, 0, "-", sizes, range(2, count + 2)),
               layout(1, done + 1, 0, [1] * len(formals), formals, [*kinds, *["reference 2"] * own])]
    return code(layouts, instrs, [child(0, 0, 2, range(2, count + 2))] if in_child else ())


def calls_at_heights(operands=200_000, calls=100_000, kinds=("reference 2",), unfit=False, step=1, writes=False):
    """Accepted: operands are pushed one by one, and at each of n heights a call takes the topmost ones. The formals are
    of these kinds in turn, and the heights differ by this step. Or refused by V5: the topmost operand of the last call
    has too few cells, or is no value. Writes: the block that is called writes a number."""
    height, away = operands + step * calls, operands + (step + 2) * calls + 1
    drops = away + 2 * calls
    by_value = ["value" in kind for kind in in_turn(kinds, height)]
    pushes = ["const 1" if value else f"addr 0 {k + 2}" for k, value in enumerate(by_value)]
    gone = ["write int" if value else "read int" for value in reversed(by_value)]
    if by_value[-1] and unfit:
        pushes[-1], gone[0] = f"addr 0 {height + 1}", "read int"
    instrs = pushes[:operands]
    for k in range(calls):
        instrs += [*pushes[operands + step * k:operands + step * (k + 1)], "const 1", f"jumpf {away + 2 * k}"]
    instrs.append(f"jump {drops}")
    for k in range(calls):
        instrs += ["call 1 0", f"jump {drops + height - step * (k + 1)}"]
    instrs += [*gone, "end", *(["const 1", "write int"] if writes else []), "return"]
    formals = range(height + 2, height + operands + 2)
    layouts = [layout(0, 0, "-", two_cells_each(height, unfit), range(2, height + 2)),
               layout(1, drops + height + 1, 0, [1] * operands, formals, in_turn(kinds, operands))]
    return code(layouts, instrs)


FILES = {
    "blocks_and_outer": blocks_and_outer,
    "chain_of_blocks": chain_of_blocks,
    "chain_in_child": chain_in_child,
    "shuffled_chain": shuffled_chain,
    "chain_in_children": chain_in_children,
    "children_above_chain": children_above_chain,
    "half_handed": half_handed,
    "children_half_handed": children_half_handed,
    "chain_in_answer": chain_in_answer,
    "chain_inside": chain_inside,
    "chain_by_reference": chain_by_reference,
    "chain_beyond_answer": chain_beyond_answer,
    "chain_of_passed": chain_of_passed,
    "ring_of_blocks": ring_of_blocks,
    "operands_one_block": lambda: operands_of_calls(200_000, 280_000, 1),
    "operands_of_blocks": lambda: operands_of_calls(4_000, 3_000, 900),
    "references_one_block": lambda: operands_of_calls(200_000, 280_000, 1, True),
    "references_of_blocks": lambda: operands_of_calls(3_000, 1_000, 700, True),
    "forks_in_forks": forks_in_forks,
    "forks_and_calls": forks_and_calls,
    "lists_and_callers": lists_and_callers,
    "wide_frame": wide_frame,
    "nested_blocks": nested_blocks,
    "far_outward": far_outward,
    "joins_of_stacks": joins_of_stacks,
    "messages_of_types": messages_of_types,
    "many_children": many_children,
    "many_tables": many_tables,
    "falling_fork": falling_fork,
    "falling_shares": falling_shares,
    "long_loops": long_loops,
    "ticked_loops": ticked_loops,
    "long_text": long_text,
    "many_texts": many_texts,
    "large_root": large_root,
    "passed_along": passed_along,
    "calls_of_lists": calls_of_lists,
    "calls_at_heights": calls_at_heights,
    "calls_of_writer": lambda: calls_of_lists(writes=True),
    "calls_of_two": lambda: calls_of_lists(own=2),
    "calls_of_writer_of_two": lambda: calls_of_lists(own=2, writes=True),
    "calls_at_steps": lambda: calls_at_heights(150_000, 70_000, step=2),
    "unfit_at_lists": lambda: calls_of_lists(unfit=True),
    "unfit_at_heights": lambda: calls_at_heights(kinds=("reference 1", "reference 2"), unfit=True),
    "unfit_values": lambda: calls_at_heights(kinds=("value 1",), unfit=True),
    "unfit_mixed": lambda: calls_of_lists(kinds=("reference 2", "value 1"), unfit=True),
    "unfit_own_cells": lambda: calls_of_lists(kinds=("reference 2", "reference 3"), unfit=True),
    "unfit_mixed_at_heights": lambda: calls_at_heights(200_000, 50_000, ("reference 2", "value 1"), True, 2),
    "unfit_threes_at_heights": lambda: calls_at_heights(200_000, 50_000, ("reference 2", "value 1", "value 1"), True, 3),
}

# Files in which two sizes still multiply: they take more than 10 seconds, or more than 2 GB.
OPEN = {
    "chain_of_owner": chain_of_owner,
    "calls_of_one_again": lambda: calls_of_lists(own=2, again=True),
    "calls_in_child": lambda: calls_of_lists(in_child=True),
    "writer_at_heights": lambda: calls_at_heights(writes=True),
}
