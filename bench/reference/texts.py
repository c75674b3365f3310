"""Texts written by hand, with the refusal of each, or None, read from docs/LANGUAGE.md. They stand
at limits, and where one rule comes before another, which random programs do not reach.
"""

from collections import namedtuple

from traces import WORDS, report

# The records are of traces with the columns x and b. The verdicts are those of the report.
Text = namedtuple('Text', 'title refusal source records verdicts')

COPY = 'function f(a: int) returns (r: int); let r = a; tel '
DIVIDES = ('function f<<const n: int>>(a: int) returns (r: int); '
           'let r = a + 1^(1 div n)[0]; tel ')
NO_SIZE = 'node g(a: int) returns (r: int); let r = a^0[0]; tel '
HOLD = 'node hold(on: bool; v: int when on) returns (w: int when on); let w = v; tel '
OWN_CLOCK = 'node g(a: int) returns (c: bool; r: int when c); let c = a > 0; r = a when c; tel '
TWO_CLOCKS = ('node h2(p, q: bool; v: int when p; w: int when q) returns (r: int when p); '
              'let r = v + %s; tel ')
TWO = 'node two(a: int) returns (r, q: int); let r = a; q = 0 -> pre q + 1; tel '
PLAIN_TWO = 'node two(a: int) returns (r, q: int); let r = a; q = a; tel '
OF_NODE = 'node h(a: bool) returns (r: bool); let r = a; tel '
OF_FUNCTION = OF_NODE.replace('node', 'function')
LARGE = ''.join('B%d = x^4096; ' % index for index in range(7))
LARGE_LOCALS = ''.join('B%d: int^4096; ' % index for index in range(7))


def text(title, refusal, body, inputs='x: int; b: bool', outputs='ok: bool', locals_='', before='',
         start='node main', records='', verdicts=''):
    """A text whose node under test has this body, after the text `before`."""
    source = '%s%s(%s) returns (%s);\n%slet %s tel\n' % (
        before and before + '\n', start, inputs, outputs, locals_ and 'var %s\n' % locals_, body)
    return Text(title, refusal, source, records, verdicts)


def chain(last):
    """Nodes c2 to that of the last number, each calling the next."""
    return ' '.join('node c%d(a: int) returns (r: int); let r = %s; tel'
                    % (index, 'a' if index == last else 'c%d(a)' % (index + 1))
                    for index in range(2, last + 1))


def in_function(value, refusal, before=''):
    """A function that has this value."""
    function = 'function g(a: bool) returns (r: bool); let r = %s; tel' % value
    return text('in a function: ' + value, refusal, 'ok = g(b);', before=before + function)


TEXTS = [
    # Instances and sizes.
    text('4096 instances', None, 'A = map<<f,4095>>(x^4095); ok = A[0] = x;',
         locals_='A: int^4095;', before=COPY),
    text('4097 instances', 12, 'A = map<<f,4096>>(x^4096); ok = A[0] = x;', locals_='A: int^4096;',
         before=COPY),
    text('E5 of the second instance before E12 of a later one', 5,
         'A = map<<f<<0>>,4096>>(x^4096); ok = A[0] = x;',
         locals_='A: int^4096;', before=DIVIDES),
    text('E6 of a later statement of main before E12 of its children', 6,
         'A = map<<f,4096>>(x^4096); ok = A[4096] = x;', locals_='A: int^4096;', before=COPY),
    text('E12 before E9', 12, 'A = map<<f,4096>>(x^4096); ok = A;', locals_='A: int^4096;',
         before=COPY),
    text('64 levels', None, 'ok = c2(x) = x;', before=chain(64)),
    text('65 levels', 12, 'ok = c2(x) = x;', before=chain(65)),
    text('size 65536', None, LARGE + 'C = x^4090; assert true; ok = true;', inputs='x: int',
         locals_=LARGE_LOCALS + 'C: int^4090;'),
    text('size 65537', 12, LARGE + 'C = x^4090; assert true; assert true; ok = true;',
         inputs='x: int', locals_=LARGE_LOCALS + 'C: int^4090;'),
    text('size 65536: parentheses are not counted', None,
         LARGE + 'C = x^4090; assert (((true))); ok = ((true));', inputs='x: int',
         locals_=LARGE_LOCALS + 'C: int^4090;'),
    text('E12 for the size before E13', 12,
         LARGE + 'C = x^4090; assert true; assert true; ok = ok;',
         inputs='x: int', locals_=LARGE_LOCALS + 'C: int^4090;'),
    text('E11 before E12 for the size', 11,
         LARGE + 'C = x^4090; assert true; assert true; ok = true;ok = true;', inputs='x: int',
         locals_=LARGE_LOCALS + 'C: int^4090;'),
    text('type of 65536', 12, 'A = x^4096^16; ok = true;', locals_='A: int^4096^16;'),
    text('type of 69632', 6, 'A = x^4096^17; ok = true;', locals_='A: int^4096^17;'),
    text('| of 4097', 9, 'ok = (x^4096 | [x])[0] = x;'),
    text('| of 4096', None, 'ok = (x^4095 | [x])[4095] = x;'),
    text('index 4095', 9, 'ok = (x^3)[4095] = x;'),
    text('index 4096', 6, 'ok = (x^3)[4096] = x;'),
    text('slice back', 6, 'ok = (x^3)[2..1][0] = x;'),
    text('slice past', 9, 'ok = (x^3)[2..3][0] = x;'),
    text('E5 before E6 in one instance', 5, 'ok = (x^0)[1 div 0] = x;'),
    text('E6 of a node before E5 of one below it', 6, 'ok = (x^0)[0] = f<<0>>(x);', before=DIVIDES),
    text('E5 of an instance before E6 of the next', 5, 'ok = f<<0>>(x) = g(x);',
         before=DIVIDES + NO_SIZE),
    text('E6 of an instance before E5 of the next', 6, 'ok = g(x) = f<<0>>(x);',
         before=DIVIDES + NO_SIZE),
    text('the outer call is the first instance', 6, 'ok = g(f<<0>>(x)) = 0;',
         before=DIVIDES + NO_SIZE),
    text('an instance stands before the next at its level', 6, 'ok = h(x) = f<<0>>(x);',
         before=DIVIDES + NO_SIZE
         + 'node h(a: int) returns (r: int); let r = g(a); tel'),
    # Names, and the node under test.
    text('E4 before E7', 4, 'ok = main(x, b); assert nope;'),
    text('E7 before E8', 7, 'ok = main(x, b) = 1;', outputs='ok: int'),
    text('E8 of a static parameter before E5', 8, 'ok = (x^(1 div 0))[0] = x;',
         start='node main<<const q: int>>'),
    text('E5 before the other rules of E8', 5, 'ok = (x^(1 div 0))[0];', outputs='ok: int'),
    text('the other rules of E8 before E9', 8, 'ok = x and 1;', outputs='ok: int'),
    text('an output with a when', 8, 'ok = b when b;', outputs='ok: bool when b'),
    text('1023 inputs', None, 'ok = true;', inputs='x: bool^1023'),
    text('1024 inputs', 8, 'ok = true;', inputs='x: bool^1024'),
    text('two outputs', 8, 'ok = true; p = b;', outputs='ok, p: bool'),
    text('a hidden constant in a static expression', 4, 'ok = (x^K)[0] = x;', inputs='x, K: int',
         before='const K = 2;'),
    text('hidden constant without value is not reached', None, 'ok = K = x;', inputs='x, K: int',
         before='const K = 1 div 0;'),
    text('static parameter hides constant', None, 'ok = g<<2>>(x) = x;',
         before='const K = 1 div 0; node g<<const K: int>>(a: int) returns (r: int); let r = '
                '(a^K)[0] + K; tel'),
    text('a constant without a value in an expression', 5,
         'ok = K = x;', before='const K = 2147483647 + 1;'),
    text('constant circle', 5, 'ok = K = x;', before='const K = L; L = K;'),
    text('a constant that names a node', 4, 'ok = K = x;', before='const K = main;'),
    text('unreached constant names nothing', None, 'ok = true;', before='const K = nope;'),
    text('node name in expression', 4, 'ok = f = x;', before=COPY),
    text('variable named as node', None, 'ok = f(f) = f;', inputs='f: int', before=COPY),
    text('call of a variable name', 4, 'ok = x(b);'),
    text('a static parameter after when', 4, 'ok = g<<2>>(x) = x;',
         before='node g<<const K: int>>(a: int) returns (r: int); let r = current (a when K); '
                'tel'),
    text('a static parameter on the left', 4, 'ok = g<<2>>(x) = x;',
         before='node g<<const K: int>>(a: int) returns (r: int); let r = a; K = 1; tel'),
    # Clocks and calls.
    text('hold true', 10, 'y = hold(true, x); ok = true;', locals_='y: int when b;', before=HOLD),
    text('hold of a constant', 9, 'y = hold(K, x); ok = true;', locals_='y: int when b;',
         before=HOLD + 'const K = 1;'),
    text('hold of a static parameter', 9, 'ok = g<<1>>(x, b) = x;',
         before=HOLD + 'node g<<const K: int>>(a: int; b: bool) returns (r: int); '
                'var y: int when b; let y = hold(K, a when b); r = a; tel'),
    text('hold((b)), in parentheses', None,
         'y = hold(((b)), x when b); ok = true;', locals_='y: int when b;',
         before=HOLD),
    text('hold expression', 10, 'y = hold(b and b, x when b); ok = true;', locals_='y: int when b;',
         before=HOLD),
    text('hold literal for the value', None, 'y = hold(b, 7); ok = true;', locals_='y: int when b;',
         before=HOLD),
    text('hold: the same clock by another variable', 10, 'y = hold(c, x when b); c = b; ok = true;',
         locals_='c: bool; y: int when c;', before=HOLD),
    text('hold on a slower clock', None, 'y = hold(c, x when b when c); c = b when b; ok = true;',
         locals_='c: bool when b; y: int when c;', before=HOLD),
    text('x when x', 10, 'y = true when b; ok = true;', locals_='y: bool when y;'),
    text('clock of output by local', 10, 'ok = current g(x) = x;',
         before='node g(a: int) returns (r: int when c); var c: bool; let c = true; r = a when '
                'c; tel'),
    text('clock of input by output', 9, 'ok = g(x) = x;',
         before='node g(a: int when c) returns (r: int; c: bool); let c = true; r = current a; '
                'tel'),
    text('clock of input by output, with two results', 10, '(y, c) = g(x); ok = true;',
         locals_='y: int; c: bool;',
         before='node g(a: int when c) returns (r: int; c: bool); let c = true; r = current a; '
                'tel'),
    text('output clock', None, '(c, y) = g(x); ok = true;', locals_='c: bool; y: int when c;',
         before=OWN_CLOCK),
    text('output clock, other variable', 10, '(c, y) = g(x); d = c; ok = true;',
         locals_='c, d: bool; y: int when d;', before=OWN_CLOCK),
    text('output clock, literal argument', None, '(c, y) = g(3); ok = true;',
         locals_='c: bool; y: int when c;', before=OWN_CLOCK),
    text('output clock, literal argument on a slower clock', None, '(c, y) = g(3); ok = true;',
         locals_='c: bool when b; y: int when c;', before=OWN_CLOCK),
    text('one variable twice on the left', 11, '(y, y) = g(3); ok = true;', locals_='y: bool;',
         before='node g(a: int) returns (c, r: bool); let c = a > 0; r = c; tel'),
    text('current of a call with a literal', 10, 'ok = current g(3);',
         before='node g(a: int) returns (r: bool); let r = a > 0; tel'),
    text('current of a call with a literal, with a when', None, 'ok = current (g(3) when b);',
         before='node g(a: int) returns (r: bool); let r = a > 0; tel'),
    text('current on the base clock', 10, 'ok = current b;'),
    text('an assertion of a literal', None, 'assert true; ok = true;'),
    text('operands on both signs', 10, 'y = (x when b) + (x when not b); ok = true;',
         locals_='y: int when b;'),
    # Iterators and results.
    text('map of a node with a when', 10,
         'y = map<<hold,1>>([b],[x]); ok = true;', locals_='y: int^1;',
         before=HOLD),
    text('map of a node without inputs', 9, 'y = map<<z,1>>([x]); ok = true;', locals_='y: int^1;',
         before='node z() returns (r: int); let r = 1; tel'),
    text('fill of a symbol', 9, 'y = fill<<+,1>>(x); ok = true;', locals_='y: int;'),
    text('red without arrays', None, 'ok = red<<f,3>>(x) = x;', before=COPY),
    text('red of a node with two outputs', 9,
         '(y, z) = red<<two,3>>(x); ok = true;', locals_='y, z: int;',
         before=PLAIN_TWO),
    text('call with two results, one left', 9, 'y = two(x); ok = true;', locals_='y: int;',
         before=PLAIN_TWO),
    text('call with two results inside', 9, '(y, z) = two(x) when b; ok = true;',
         locals_='y, z: int when b;',
         before=PLAIN_TWO),
    text('two variables for a plain expression', 9, '(y, z) = x; ok = true;', locals_='y, z: int;'),
    text('function with call of node', 11, 'ok = g(b);',
         before='node h(a: bool) returns (r: bool); let r = a; tel function g(a: bool) returns '
                '(r: bool); let r = h(a); tel'),
    text('function may have when', None, 'ok = current g(b, x) = 1;',
         before='function g(a: bool; v: int) returns (r: int when a); let r = v when a; tel'),
    text('function with current', 11, 'ok = g(b, x) = 1;',
         before='function g(a: bool; v: int) returns (r: int); let r = current (v when a); tel'),
    text('a function under test with a memory', 11, 'ok = b -> pre b;', start='function main'),
    text('nodes with the names of iterators', None, 'ok = map(b) and red(b) and fill(b);',
         before=' '.join('node %s(a: bool) returns (r: bool); let r = a; tel' % each
                         for each in ('map', 'red', 'fill'))),
    text('map of a node named map', None, 'ok = map<<map,1>>([b])[0];',
         before='node map(a: bool) returns (r: bool); let r = a; tel'),
    # Causality.
    text('a variable that needs itself', 13, 'ok = if b then ok else true;'),
    text('a need through ->', 13, 'ok = true -> ok;'),
    text('no need through fby', None, 'ok = true fby ok;'),
    text('an assertion is no element', None, 'ok = true; assert ok;'),
    text('the clock of a pre is needed', 13,
         'c = (current (pre s)) = 0; s = x when c; ok = true;', locals_='c: bool; s: int when c;'),
    text('operand of pre may need the variable', None,
         'c = true -> pre (current s = 0); s = x when c; ok = true;',
         locals_='c: bool; s: int when c;'),
    text('when inside pre on the way out', None,
         'c = true -> pre (current (x when c) = 0); ok = true;', locals_='c: bool;'),
    text('when needs its variable', 13,
         'c = current (true when c); ok = true;', locals_='c: bool;'),
    text('a call on a clock that its result defines', 13, 'c = current (g(b when c)); ok = true;',
         locals_='c: bool;', before='node g(a: bool) returns (r: bool); let r = true; tel'),
    text('instance on a clock, output needs no argument', None, '(p, q) = g(q, b); ok = p;',
         locals_='p, q: bool;',
         before='node g(a, e: bool) returns (r, s: bool); let r = a; s = e; tel'),
    text('red symbol needs all', 13, 'A = [red<<+,2>>(0, A), 1]; ok = true;', locals_='A: int^2;'),
    text('red node needs what its equations name', None, 'A = [red<<k,2>>(0, A), 1]; ok = true;',
         locals_='A: int^2;', before='node k(a, e: int) returns (r: int); let r = 1; tel'),
    text('map symbol by element', None, 'A = map<<+,2>>([x, A[0]], [1, 1]); ok = true;',
         locals_='A: int^2;'),
    text('if needs branch of the same element', None,
         'A = if b then [x, A[0]] else [1, A[0]]; ok = true;', locals_='A: int^2;'),
    text('data operator needs both', 13, 'A = [x, A[1] * 0]; ok = true;', locals_='A: int^2;'),
    text('slice of own', None, 'A = [x] | A[0..1]; ok = true;', locals_='A: int^3;'),
    text('slice of own cyclic', 13, 'A = A[0..1] | [x]; ok = true;', locals_='A: int^3;'),
    # Clocks of calls, and named places, with traces.
    text('one variable for two clock parameters', None,
         'y = h2(b, b, x when b, x when b); ok = true;', locals_='y: int when b;',
         before=TWO_CLOCKS % '1'),
    text('two parameters are two clocks', 10, 'y = h2(b, b, x when b, x when b); ok = true;',
         locals_='y: int when b;', before=TWO_CLOCKS % 'w'),
    text('two parameters, brought back', None, 'y = h2(b, b, x when b, x when b); ok = true;',
         locals_='y: int when b;', before=TWO_CLOCKS % '(current w when p)'),
    text('the results of map on two clocks', 10, '(y, z) = map<<two,1>>([1]); ok = true;',
         locals_='y: int^1; z: int^1 when b;', before=TWO),
    text('the results of map on a slower clock, with a literal', None,
         '(y, z) = map<<two,1>>([1]); ok = true;',
         locals_='y, z: int^1 when b;', before=TWO),
    text('the results of fill on a slower clock: its memory moves at ticks', None,
         '(y, z) = fill<<two,1>>(1); ok = current z[0] = x;',
         locals_='y: int when b; z: int^1 when b;', before=TWO,
         records='a,0,1 a,0,0 a,0,0 a,1,1 a,1,0 a,3,1', verdicts='a false 5'),
    text('two results on a slower clock, with a literal', None,
         '(y, z) = two(1); ok = current z = x;', locals_='y, z: int when b;', before=TWO,
         records='a,0,1 a,0,0 a,0,0 a,1,1 a,1,0 a,3,1', verdicts='a false 5'),
    text('two results on two clocks, with a literal', 10, '(y, z) = two(1); ok = true;',
         locals_='y: int; z: int when b;', before=TWO),
    text('argument of a clock output is faster', 10, '(y, z) = two(x); ok = true;',
         locals_='y, z: int when b;', before=TWO),
    text('the result of a call on another clock', 10, 'y = f(x); ok = true;',
         locals_='y: int when b;', before=COPY),
    text('call asked for a slower clock, argument determines the base', 10,
         'y = current g(x) when b; ok = true;', locals_='y: int when b;',
         before='node g(a: int) returns (r: int); let r = a; tel'),
    text('assertion by a clocked result', None, 'assert g(b, (x > 0) when b); ok = true;',
         before='node g(c: bool; a: bool when c) returns (r: bool when c); let r = a; tel',
         records='a,0,0 a,1,1 a,0,1 b,0,0', verdicts='a assertion 2, b passed'),
    text('literal assertion in a node on a slower clock', None, 'ok = current (g(b when b));',
         before='node g(c: bool) returns (r: bool); let assert false; r = c; tel',
         records='a,0,1 b,0,0', verdicts='a assertion 0, b undefined 0'),
    text('a node that never ticks has no assertion', None, 'ok = true -> current (g(b when b));',
         before='node g(c: bool) returns (r: bool); let assert false; r = c; tel',
         records='b,0,0 b,0,0', verdicts='b undefined 1'),
    text('nil in an unused clock variable of a callee', None,
         'ok = current g(c, x when b) >= 0 or true; c = pre b when b;', locals_='c: bool when b;',
         before='node g(c: bool; a: int) returns (r: int); let r = current (a when c) ; tel',
         records='a,0,1', verdicts='a undefined 0'),
    text('nil passes where it is no clock', None, 'ok = true; c = pre b when b;',
         locals_='c: bool when b;', records='a,0,1', verdicts='a passed'),
    text('clock variable named only in a dropped element', None,
         'ok = true; c = pre b; y = [x, current (x when c)][0];', locals_='c: bool; y: int;',
         records='a,0,1', verdicts='a undefined 0'),
    text('operand of current: bad, absent at others', None,
         'ok = true -> current (1 / x when b) > 0;', records='a,0,0 a,1,1 b,0,1',
         verdicts='a passed, b fault 0'),
    text('operand of pre on the unused side of if', None,
         'ok = if b then true else pre (1 / x) = 1;', records='a,0,1', verdicts='a fault 0'),
    text('array operand of pre: any element', None, 'ok = true -> (pre [1, 1 / x])[0] = 1;',
         records='a,0,1', verdicts='a fault 0'),
    text('iterated symbol argument is no named place', None,
         'ok = map<<+,2>>([1, 1 / x],[1, 1])[0] = 2;', records='a,0,1', verdicts='a passed'),
    text('iterated node argument is one', None, 'ok = map<<g,2>>([1, 1 / x])[0] = 1;',
         before='node g(a: int) returns (r: int); let r = a; tel', records='a,0,1',
         verdicts='a fault 0'),
    text('an argument of the call that is not used', None, 'ok = g(1 / x);',
         before='node g(a: int) returns (r: bool); let r = true; tel', records='a,0,1',
         verdicts='a fault 0'),
    text('an assertion is a named place', None, 'assert 1 / x > 0; ok = true;',
         records='a,0,1 b,1,1', verdicts='a fault 0, b passed'),
    text('fby: operand on the right kept, left not', None, 'ok = (1 / x fby 1) >= 0 or true;',
         records='a,1,1 a,0,1 b,0,1', verdicts='a passed, b fault 0'),
    text('not c of an absent c', None,
         'c = (x > 0) when b; ok = true -> current current (s when not c) = 5; s = 5 when b;',
         locals_='c: bool when b; s: int when b;', records='a,0,1 a,0,0 b,1,1 b,0,0',
         verdicts='a passed, b undefined 1'),
    text('clock in another node named as the variable', None, 'ok = g(b) or true;',
         before='node g(b: bool) returns (r: bool); let r = b; tel'),
    text('E9 in a second instance alone', 9, 'ok = g<<3>>(x) = g<<2>>(x);',
         before='node g<<const n: int>>(a: int) returns (r: int); let r = (a^n)[2]; tel'),
    text('E9 of a later instance before E10 of an earlier', 9, 'ok = g<<3>>(x) = g<<2>>(x when b);',
         before='node g<<const n: int>>(a: int) returns (r: int); let r = (a^n)[2]; tel'),
    text('E10 before E11', 10, 'ok = x = (x when b); ok = true;'),
    text('E6 of a second instance before E9 of the first', 6, 'ok = g<<3>>(x) = g<<0>>(x) and 1;',
         before='node g<<const n: int>>(a: int) returns (r: int); let r = (a^n)[0]; tel'),
    text('const -0 and double minus', None, 'ok = x = - - x and -x = K;',
         before='const K = - (2147483647) - 1;', records='a,-2147483648,1 b,0,1',
         verdicts='a fault 0, b false 0'),
    text('constant -(-2147483648)', 5, 'ok = x = K;', before='const K = - L; L = -2147483647 - 1;'),
    # Types, and clocks of expressions.
    text('array =', 9, 'ok = [1,2] = [x,x];'),
    text('array <>', 9, 'ok = [b] <> [b];'),
    text('bool =', None, 'ok = b = b;'),
    text('bool <', 9, 'ok = b < b;'),
    text('int = bool', 9, 'ok = x = b;'),
    text('element =', None, 'ok = [b][0] = b;'),
    text('bool^1 is no bool', 9, 'ok = [b];'),
    text('| with a scalar', 9, 'ok = ([x] | x)[0] = x;'),
    text('| of nested arrays', None, 'ok = ([[x]] | [x]^2)[2][0] = x;'),
    text('a clock that is an array', 9, 'ok = true; y = x;', locals_='c: bool^1; y: int when c;'),
    text('when of an int', 9, 'ok = current (b when x);'),
    text('E9 of a declared clock before E10', 9,
         'y = x when b; ok = true;', locals_='y: int when x;'),
    text('# of int', 9, 'ok = #(b, x);'),
    text('nor of arrays', 9, 'ok = nor([b]);'),
    text('the results of map, in order', None, '(y, z) = map<<t,2>>(x^2); ok = true;',
         locals_='z: bool^2; y: int^2;',
         before='node t(a: int) returns (p: int; q: bool); let p = a; q = true; tel'),
    text('nested map shape', None, 'y = map<<t,3>>(x^2^3); ok = true;', locals_='y: int^2^3;',
         before='node t(a: int^2) returns (p: int^2); let p = a; tel'),
    text('nested map shape wrong', 9, 'y = map<<t,2>>(x^2^3); ok = true;', locals_='y: int^2^3;',
         before='node t(a: int^2) returns (p: int^2); let p = a; tel'),
    text('current current from depth 1', 10, 'ok = current current (b when b);'),
    text('current of when of when', None, 'ok = current current (b when b when c); c = b when b;',
         locals_='c: bool when b;'),
    text('twice down, twice up', None, 'ok = current current ((b when b) when c); c = b when b;',
         locals_='c: bool when b;'),
    text('c on when b: operand on the clock of c', None,
         'ok = current current (c when c); c = b when b;', locals_='c: bool when b;'),
    text('not c on both sides', None, 'y = (x when not b) + 1; ok = true;',
         locals_='y: int when not b;'),
    text('wrong sign', 10, 'y = x when b; ok = true;', locals_='y: int when not b;'),
    # Functions.
    in_function('a -> a', 11),
    in_function('a fby a', 11),
    in_function('pre a', 11),
    in_function('current (a when a)', 11),
    in_function('map<<h,1>>([a])[0]', 11, OF_NODE),
    in_function('red<<h,1>>(a)', 11, OF_NODE),
    in_function('h(a)', 11, OF_NODE),
    in_function('h(a)', None, OF_FUNCTION),
    in_function('map<<and,1>>([a],[a])[0]', None),
]


def texts_of(text_):
    """The traces of a text, and the report on them."""
    verdicts = [verdict.split() for verdict in text_.verdicts.split(', ') if verdict]
    verdicts = [(name, word, int(instant[0]) if instant else None)
                for name, word, *instant in verdicts]
    assert all(word in WORDS for _, word, _ in verdicts)
    return '\n'.join(['trace,x,b'] + text_.records.split()) + '\n', report(verdicts)


def differences(tool):
    """The texts to which the tool gives another answer, each with what is wanted and found."""
    for each in TEXTS:
        traces, wanted = texts_of(each)
        tool.write(each.source, traces)
        status, _, errors = tool.answer(['--check'], with_traces=False)
        refusal = int(errors.split()[1][1:]) if status == 2 else None
        if refusal != each.refusal:
            yield each, 'E%s' % each.refusal, errors or 'accepted'
        elif each.records:
            for workers in ('1', '4'):
                found = tool.answer(['--workers', workers])[1]
                if found != wanted:
                    yield each, wanted, found
