#!/bin/sh
# Does the same as awk.sh, with Miller. It also takes quoted cells, and finds the columns by name.
#
#     recipes/loggers/mlr.sh < logger.csv > traces.csv
mlr --csv --ifs ';' --ofs , \
    cut -x -f time then \
    rename run,trace then \
    reorder -f trace then \
    put -S 'for (name, cell in $*) {
        if (cell == "TRUE" || cell == "FALSE") {
            $[name] = tolower(cell)
        } elif (name != "trace" && cell =~ "^(-?[0-9]+)\.0+$") {
            $[name] = "\1"
        }
    }'
