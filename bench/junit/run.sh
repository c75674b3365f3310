#!/bin/sh
# Checks the JUnit XML of each example against a schema, with xmllint of Debian's libxml2-utils, and
# compares it byte for byte with what suite.awk makes from the report.
#
#     LBENCH=crates/lbench/out/lbench bench/junit/run.sh
set -eu
here=$(cd "$(dirname "$0")" && pwd)
lbench=${LBENCH:-lbench}
work=$(mktemp -d)
trap 'rm -rf "$work"' EXIT
cd "$here/../../examples"
for source in *.lus; do
    name=${source%.lus}
    "$lbench" --merge "$name.report" --format junit >"$work/$name.xml" || :
    xmllint --noout --schema "$here/junit.xsd" "$work/$name.xml" 2>"$work/said" ||
        { cat "$work/said"; exit 1; }
    awk -f "$here/suite.awk" "$name.report" | cmp - "$work/$name.xml"
    echo "$name.xml: valid, $(grep -c "<testcase" "$work/$name.xml") cases, as wanted"
done
