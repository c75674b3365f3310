# Writes a trace text of N records (-v records=N): forty Boolean columns, whose values look
# drawn at random, in traces of 20 to 360 instants. It writes the same bytes at each run.
function draw() {
    state = (state * 16807) % 2147483647
    return int(state / 65536) % 256
}

BEGIN {
    # The cells of eight columns, for each byte.
    for (byte = 0; byte < 256; byte++) {
        cells[byte] = ""
        for (bit = 1; bit < 256; bit *= 2) cells[byte] = cells[byte] "," int(byte / bit) % 2
    }
    header = "trace"
    split("section 8 normal 4 reversed 4 request 8 cancel 8 lit 6", columns, " ")
    for (c = 1; c in columns; c += 2)
        for (i = 1; i <= columns[c + 1]; i++) header = header "," columns[c] i
    print header ",emergency,power"
    state = 1
    left = 0
    for (r = 0; r < records; r++) {
        if (left == 0) {
            trace++
            left = 20 + 20 * (draw() % 18)
        }
        left--
        line = "run-" trace
        for (c = 0; c < 5; c++) line = line cells[draw()]
        print line
    }
}
