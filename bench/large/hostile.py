"""Sources that are hard to judge.

    hostile.py              the names of the sources, each with what it has
    hostile.py NAME BYTES   the longest source of this name that has at most BYTES bytes

It prints the same bytes at each run. A statement has at most 500 operators and opening brackets, so
many of these sources nest nearly as many operators around a long row, or have an array of as many
dimensions.
"""

import itertools
import sys

RESERVED = set(
    "and assert bool const current div else false fby function if int let map mod node nor not"
    " ok or pre red returns tel then true var when x xor A B".split()
)
# Nearly the most operators and opening brackets of a statement.
DEEP = 490
# The type of an array of DEEP dimensions, with one element.
WIDE = "int" + "^1" * DEEP
LETTERS = "abcdefghijklmnopqrstuvwxyzABCDEFGHIJKLMNOPQRSTUVWXYZ"


def all_names():
    for length in itertools.count(1):
        for letter in LETTERS:
            for rest in itertools.product(LETTERS + "_0123456789", repeat=length - 1):
                word = letter + "".join(rest)
                if word not in RESERVED:
                    yield word


NAMES = []
SOURCE_OF_NAMES = all_names()


def names(count):
    """As many short names as count says, none twice."""
    while len(NAMES) < count:
        NAMES.append(next(SOURCE_OF_NAMES))
    return NAMES[:count]


def row(count, operand):
    return ",".join([operand] * count)


def main_node(body, declared=""):
    return f"node main(x:int)returns(ok:bool);{declared}let ok=true;{body}tel "


def function(inputs, outputs="returns(A:int)", body="A=0;"):
    return f"function F({inputs}){outputs};let {body}tel "


def clocked(listed):
    """Declarations of variables, each on the one before it, and their equations."""
    own = f"{listed[0]}:bool" + "".join(
        f";{name}:bool when {above}" for above, name in zip(listed, listed[1:])
    )
    same = f"{listed[0]}=true;" + "".join(
        f"{name}=true when {above};" for above, name in zip(listed, listed[1:])
    )
    return own, same


# ## Calls


def parameters(n):
    "a call of a node of many inputs"
    inputs = ",".join(names(n)) + ":int"
    return function(inputs) + main_node(f"assert F({row(n, 'x')})=0;")


def clocked_parameters(n):
    "a call of a node of many inputs on one clock"
    inputs = f"A:bool;{','.join(names(n))}:int when A"
    call = f"A=x>0;B=x when A;assert F(A,{row(n, 'B')})=0;"
    return function(inputs, "returns(B:int)", "B=0;") + main_node(call, "var A:bool;B:int when A;")


def clocks_of_parameters(n):
    "a call of a node of many inputs, each the clock of the next"
    own, same = clocked(names(n))
    call = f"{same}assert F({','.join(names(n))})=0;"
    return function(own) + main_node(call, f"var {own};")


def results(n):
    "a call of a node of many outputs"
    lefts = ",".join(names(n))
    body = "".join(f"{name}=A;" for name in names(n))
    return function("A:int", f"returns({lefts}:int)", body) + main_node(
        f"({lefts})=F(x);", f"var {lefts}:int;"
    )


def calls(n):
    "4,000 calls of a node of some inputs"
    inputs = ",".join(names(n)) + ":int"
    return function(inputs) + main_node(f"assert F({row(n, 'x')})=0;" * 4000)


def nested_calls(n):
    "calls within calls, each with operands beside"
    inputs = ",".join(names(n + 1)) + ":int"
    call = f"assert 0={'F(' * 480}x{(',' + row(n, 'x') + ')') * 480};"
    return function(inputs) + main_node(call * 8)


def chain(n):
    "a chain of 60 nodes of many statements"
    body = "A=G%d(B);" + "assert A=B;" * n
    below = "".join(
        f"node G{k}(B:int)returns(A:int);let {body % (k + 1)}tel " for k in range(60)
    )
    return below + "node G60(B:int)returns(A:int);let A=B;tel " + main_node("assert G0(x)=x;")


# ## Arrays of many dimensions


def wide_list(n):
    "a list of many arrays of 490 dimensions"
    return main_node(f"A=A;assert [{row(n, 'A')}];", f"var A:{WIDE};")


def wide_truths(n):
    "many arrays of 490 dimensions where truths are wanted"
    return main_node(f"A=A;assert #({row(n, 'A')});", f"var A:{WIDE};")


def wide_call(n):
    "a call with many arrays of 490 dimensions"
    call = f"A=A;assert F({row(n, 'A')})=0;"
    return function(f"{','.join(names(n))}:{WIDE}") + main_node(call, f"var A:{WIDE};")


def wide_map(n):
    "a map over many arrays of 490 dimensions"
    call = f"A=A;assert map<<F,1>>({row(n, 'A')})=0;"
    return function(f"{','.join(names(n))}:{WIDE[:-2]}") + main_node(call, f"var A:{WIDE};")


def wide_results(n):
    "a call that gives many arrays of 490 dimensions"
    lefts = ",".join(names(n))
    body = f"var A:{WIDE};let A=A;" + "".join(f"{name}=A;" for name in names(n))
    return f"function F(B:int)returns({lefts}:{WIDE});{body}tel " + main_node(
        f"({lefts})=F(x);", f"var {lefts}:{WIDE};"
    )


def wide_variables(n):
    "many variables of 490 dimensions"
    body = "".join(f"{name}=A;" for name in names(n))
    return main_node(f"A=A;{body}", f"var A,{','.join(names(n))}:{WIDE};")


def wide_arrows(n):
    "nests of arrows of arrays of 490 dimensions"
    return main_node(f"A={'A->' * DEEP}A;" + f"assert {'A->' * DEEP}A=A;" * n, f"var A:{WIDE};")


def indexes(n):
    "490 indexes into an array of as many dimensions"
    return main_node("A=A;" + f"assert A{'[0]' * DEEP}=x;" * n, f"var A:{WIDE};")


# ## Rows within nests


def below_nots(n):
    "a long row of truths within 490 negations"
    return main_node(f"A=x>0;assert {'not ' * DEEP}#({row(n, 'A')});", "var A:bool;")


def below_sums(n):
    "a call with a long row within 240 sums"
    inputs = ",".join(names(n)) + ":int"
    return function(inputs) + main_node(f"assert 0={'(x+' * 240}F({row(n, 'x')}){')' * 240};")


def below_calls(n):
    "a long row of truths within 490 calls"
    call = f"A=x>0;assert {'F(' * DEEP}#({row(n, 'A')}){')' * DEEP};"
    return function("A:bool", "returns(B:bool)", "B=A;") + main_node(call, "var A:bool;")


def below_choices(n):
    "a long row of truths within the conditions of 240 choices"
    whole = f"{'if ' * DEEP}#({row(n, 'A')}){' then A else A' * DEEP}"
    return main_node(f"A=x>0;assert {whole};", "var A:bool;")


def below_currents(n):
    "a long row of truths on the lowest of 480 clocks, taken back up"
    own, same = clocked(names(480))
    given = row(n, names(480)[-1])
    return main_node(f"{same}assert {'current ' * 479}#({given});", f"var {own};")


def ill_typed_below(n):
    "a long row within 490 negations, whose last operand is no truth"
    return main_node(f"A=x>0;assert {'not ' * DEEP}#({row(n, 'A')},x);", "var A:bool;")


def ill_clocked_below(n):
    "a long row within 490 negations, whose last operand is on another clock"
    body = f"A=x>0;B=A when A;assert {'not ' * DEEP}#({row(n, 'A')},B);"
    return main_node(body, "var A:bool;B:bool when A;")


# ## Nests


def signs(n):
    "nests of signs"
    return main_node(f"assert x={'- ' * DEEP}x;" * n)


def sums(n):
    "nests of sums"
    return main_node(f"assert x={'(x+' * 240}x{')' * 240};" * n)


def lists(n):
    "nests of lists"
    return main_node(f"assert ({'[' * 240}x{']' * 240}){'[0]' * 240}=x;" * n)


def choices(n):
    "nests of choices"
    return main_node(f"assert x={'if true then x else ' * DEEP}x;" * n)


def samplings(n):
    "terms that are sampled on each of 200 clocks in turn, and taken back up"
    own, same = clocked(names(200))
    whens = "".join(f" when {name}" for name in names(200))
    return main_node(same + f"assert {'current ' * 200}(x{whens})=x;" * n, f"var {own};")


# ## Declarations


def clocks(n):
    "many variables, each on the one before it"
    own, same = clocked(names(n))
    return main_node(same, f"var {own};")


def clocks_upward(n):
    "many variables, each on the one after it"
    own = "".join(f"{name}:bool when {above};" for name, above in zip(names(n), names(n)[1:]))
    same = "".join(f"{name}=true when {above};" for name, above in zip(names(n), names(n)[1:]))
    return main_node(f"{names(n)[-1]}=true;{same}", f"var {own}{names(n)[-1]}:bool;")


def circle(n):
    "declared clocks in a long circle"
    pairs = zip(names(n), names(n)[1:] + names(n)[:1])
    return main_node("", "var " + "".join(f"{name}:bool when {above};" for name, above in pairs))


def lowest_clock(n):
    "an equation on the lowest of many clocks, where the base clock is wanted"
    own, same = clocked(names(n))
    return main_node(f"{same}A={names(n)[-1]};", f"var {own};A:bool;")


def undefined(n):
    "many variables, of which the last has no equation"
    same = "".join(f"{name}=x;" for name in names(n)[:-1])
    return main_node(same, "var " + "".join(f"{name}:int;" for name in names(n)))


def ill_typed(n):
    "many equations, of which the last breaks a rule of types"
    same = "".join(f"{name}=x;" for name in names(n)[:-1])
    return main_node(
        f"{same}{names(n)[-1]}=true;", "var " + "".join(f"{name}:int;" for name in names(n))
    )


# ## Specializations


def specializations(n):
    "640 specializations of a node with many sizes"
    each = "".join(f"assert G<<{k}>>(x)=x;" for k in range(1, 641))
    return (
        "node G<<const k:int>>(B:int)returns(A:int);let A=B;"
        + f"assert B{'^k' * DEEP};" * n + "tel " + main_node(each)
    )


def sliced_specializations(n):
    "640 specializations of a node with many slices"
    each = "".join(f"assert G<<{k}>>(x)=x;" for k in range(1, 641))
    return (
        "node G<<const k:int>>(B:int)returns(A:int);let A=B;"
        + f"assert B{'[0..k]' * DEEP};" * n + "tel " + main_node(each)
    )


def lawful_specializations(n):
    "200 specializations of a node with many statements that name its parameter"
    each = "".join(f"assert G<<{k}>>(x)=x;" for k in range(1, 201))
    return (
        "node G<<const k:int>>(B:int)returns(A:int);let A=B;"
        + "assert(B^k)[k-1]=B;" * n + "tel " + main_node(each)
    )


FAMILIES = [
    parameters, clocked_parameters, clocks_of_parameters, results, calls, nested_calls, chain,
    wide_list, wide_truths, wide_call, wide_map, wide_results, wide_variables, wide_arrows, indexes,
    below_nots, below_sums, below_calls, below_choices, below_currents, ill_typed_below,
    ill_clocked_below, signs, sums, lists, choices, samplings, clocks, clocks_upward, circle,
    lowest_clock, undefined, ill_typed, specializations, sliced_specializations,
    lawful_specializations,
]


def longest(family, size):
    """The text of a family for the greatest count with which it has at most size bytes."""
    least = 2
    while len(family(2 * least)) <= size:
        least *= 2
    most = 2 * least
    while least < most:
        middle = (least + most + 1) // 2
        if len(family(middle)) > size:
            most = middle - 1
        else:
            least = middle
    return family(least)


def main():
    if len(sys.argv) == 1:
        for family in FAMILIES:
            print(f"{family.__name__}: {family.__doc__}")
        return
    family = {family.__name__: family for family in FAMILIES}[sys.argv[1]]
    sys.stdout.write(longest(family, int(sys.argv[2])))


main()
