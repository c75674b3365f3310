# Writes a trace text of N records (-v records=N) in traces of 190 instants, with values that
# look drawn at random: twenty integers a record, or with -v booleans=1 forty Booleans; with
# -v quoted=1 each cell in quotes. It writes the same bytes at each run.
BEGIN {
    instants = 190
    quote = quoted ? "\"" : ""
    between = quote "," quote
    columns = booleans ? 40 : 20
    header = "trace"
    for (c = 0; c < columns; c++) header = header between column_name(c)
    print quote header quote
    state = 1
    for (r = 0; r < records; r++) {
        line = "run-" int(r / instants)
        for (c = 0; c < columns; c++) {
            state = (state * 16807) % 2147483647
            line = line between (booleans ? state % 16 == 0 : state % 1000 - 200)
        }
        print quote line quote
    }
}

function column_name(c) {
    if (!booleans) return "level" c
    return c < 20 ? "open" c : "locked" (c - 20)
}
