# Writes a trace text of N records (-v records=N) for tanks.lus: eight levels that wander, a
# set point, a demand and a message about each fourth instant, in traces of 500 instants, or of 100
# to 900 with -v mixed=1. Near the end of some traces comes a demand that the openings do not meet,
# one that goes beyond the integers, or a set point that is not assumed. It writes the same bytes at
# each run.
function draw(n) {
    state = (state * 16807) % 2147483647
    return int(state / 256) % n
}

BEGIN {
    state = 1
    line = "trace"
    for (i = 0; i < 8; i++) line = line ",level[" i "]"
    print line ",wanted,demand,message"
    for (r = 0; r < records; r++) {
        if (left == 0) {
            trace++
            left = mixed ? 100 + draw(801) : 500
            event = trace % 16
            at = 1 + draw(int(left / 10))
            for (i = 0; i < 8; i++) level[i] = 300 + draw(400)
            wanted = 400 + draw(300)
        }
        steps = draw(65536)
        line = "run-" trace
        for (i = 0; i < 8; i++) {
            level[i] += (steps % 4 - 1.5) * 4
            steps = int(steps / 4)
            if (level[i] < 0) level[i] = 0
            if (level[i] > 1000) level[i] = 1000
            line = line "," level[i]
        }
        demand = 200 + draw(600)
        limit = wanted
        if (left == at && event == 3) demand = 21474900
        if (left == at && event == 7) demand = 10000000
        if (left == at && event == 11) limit = 1001
        print line "," limit "," demand "," (draw(4) == 0)
        left--
    }
}
