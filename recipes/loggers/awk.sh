#!/bin/sh
# Turns the CSV of a logger into a trace text. The CSV has a column of times, `;` between cells,
# TRUE and FALSE, and 10.0 for 10. It must have no quotes.
#
#     recipes/loggers/awk.sh < logger.csv > traces.csv
awk -F ';' -v OFS=, '
NR == 1 { $2 = "trace" }
NR > 1 {
    for (i = 3; i <= NF; i++) {
        if ($i == "TRUE" || $i == "FALSE") $i = tolower($i)
        sub(/\.0+$/, "", $i)
    }
}
{ line = $2; for (i = 3; i <= NF; i++) line = line OFS $i; print line }'
