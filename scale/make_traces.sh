#!/bin/sh
# Prints a trace text of about BYTES bytes for scale/valve.lus, with traces of 1 to 2000 instants.
#
#     scale/make_traces.sh BYTES > traces.csv
awk -v bytes="$1" 'BEGIN {
    print "trace,open"
    size = 11
    seed = 1
    for (number = 0; size < bytes; number++) {
        seed = (seed * 16807) % 2147483647
        instants = 1 + seed % 2000
        name = sprintf("rig%d/%07d", number % 7, number)
        for (t = 0; t < instants; t++) {
            seed = (seed * 16807) % 2147483647
            print name "," (seed % 23 == 0 ? 1 : seed % 2 == 0 && seed % 3 == 0 ? 1 : 0)
        }
        size += instants * (length(name) + 3)
    }
}'
