# The sources of run.sh, of which `which` names one.
BEGIN {
    if (which == "sizes") sizes()
    if (which == "literals") literals()
    if (which == "trivial") trivial()
    if (which == "instances") instances()
    if (which == "arrays") arrays()
    if (which == "scalars") scalars()
    if (which == "burner") burner()
    if (which == "reading") reading()
}

# One node of 800 equations with sizes that do not name its parameter, called with 4,000 values.
function sizes(  n) {
    print "node below<<const n: int>>(x: int) returns (y: int);\nvar"
    for (n = 1; n <= 800; n++) print "  v" n ": int^3;"
    print "let"
    for (n = 1; n <= 800; n++)
        print "  v" n " = if x > " n " then (x + " n ")^3 else ([x, 0] | [1]);"
    print "  y = v1[0] + v800[2] + n;\ntel"
    print "node main(x: int) returns (ok: bool);\nlet"
    for (n = 1; n <= 4000; n++)
        print "  -- the value of the parameter of this call is " n "\n" \
            "  assert below<<" n ">>(x + " n ") < 9;"
    print "  ok = true;\ntel"
}

# One node of 22,800 literals that name its parameter, called with 99 values, of which the last is
# no index of its array.
function literals(  n, k, line) {
    print "node below<<const n: int>>(a: int^99) returns (y: int);\nvar"
    for (n = 1; n <= 95; n++) print "  v" n ": int;"
    print "let"
    for (n = 1; n <= 95; n++) {
        line = "[n]"
        for (k = 2; k <= 240; k++) line = line " | [n]"
        print "  v" n " = (" line ")[" n "];"
    }
    print "  y = a[n];\ntel"
    print "node main(a: int^99) returns (ok: bool);\nlet"
    for (n = 1; n <= 99; n++) print "  assert below<<" n ">>(a) < 1000000;"
    print "  ok = true;\ntel"
}

# The smallest program.
function trivial() {
    print "node main(x: int) returns (ok: bool); let ok = true; tel"
}

# 4,096 instances, each with a memory. The size is 53,239.
function instances() {
    print "node count(x: int) returns (n: int);"
    print "let n = (x -> pre n + x) mod 1000; tel"
    print "node main(x: int) returns (ok: bool);\nvar n: int^4095;"
    print "let n = map<<count, 4095>>(x^4095); ok = true; tel"
}

# Arrays of 4,096 elements. The size is 61,447.
function arrays() {
    print "node main(x: int) returns (ok: bool);\nvar a, b, c, d: int^4096;\nlet"
    print "  a = x^4096;\n  b = map<<+, 4096>>(a, a);\n  c = b -> pre c;"
    print "  d = if x > 0 then a else c;"
    print "  ok = true;\ntel"
}

# Scalars alone: 303 instances in a row, of 16 locals each. The size is 65,453.
function scalars(  n, k) {
    print "node stage(x: int) returns (y: int);\nvar"
    for (k = 1; k <= 16; k++) print "  v" k ": int;"
    print "let"
    for (k = 1; k <= 16; k++)
        print "  v" k " = (0 -> pre v" k ") + (if x > " k " then 1 else -1);"
    print "  y = v1 + v16;\ntel"
    print "node main(x: int) returns (ok: bool);\nvar"
    for (n = 0; n <= 303; n++) print "  s" n ": int;"
    print "let\n  s0 = x;"
    for (n = 1; n <= 303; n++) print "  s" n " = stage(s" n - 1 ");"
    print "  ok = true;\ntel"
}

# A small controller with memories, and a program with the same inputs that looks at none.
function burner() {
    print "node main(start, flame, reset: bool) returns (ok: bool);"
    print "var gas, tripped: bool; waited, unlit: int;\nlet"
    print "  gas = start and not tripped;"
    print "  waited = if gas and not flame then (0 -> pre waited) + 1 else 0;"
    print "  unlit = if reset then 0 else (0 -> pre unlit) + (if gas and not flame then 1 else 0);"
    print "  tripped = false -> pre waited >= 3 or pre tripped and not reset;"
    print "  ok = unlit <= 5;\ntel"
}
function reading() {
    print "node main(start, flame, reset: bool) returns (ok: bool); let ok = true; tel"
}
