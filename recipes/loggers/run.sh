#!/bin/sh
# Runs the recipes for the CSV of loggers, and compares what they print with wanted.csv. The program
# mlr is Miller: `apt install miller` on Debian.
set -eu
cd "$(dirname "$0")"
for recipe in awk mlr; do
    if command -v $recipe >/dev/null; then
        ./$recipe.sh <logger.csv | cmp wanted.csv -
        echo "$recipe: as wanted"
    else
        echo "$recipe: not installed, not tried"
    fi
done
