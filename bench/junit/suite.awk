# The JUnit XML of a report whose names need no escapes, written a second time by FORMATS alone:
# run.sh compares it byte for byte with what the bench prints.
$1 == "total" {
    print "<?xml version='1.0' encoding='UTF-8'?>"
    print "<testsuites>"
    print "<testsuite name='main' tests='" $2 "' failures='" $6 + $8 + $12 \
        "' errors='0' skipped='" $10 "'>"
    printf "%s", cases
    print "</testsuite>"
    print "</testsuites>"
    next
}
{
    head = "<testcase classname='main' name='" $1 "'"
    said = $2 " " $3
    if ($2 == "passed")
        cases = cases head "/>\n"
    else if ($2 == "assertion")
        cases = cases head "><skipped message='" said "'/></testcase>\n"
    else
        cases = cases head "><failure type='" $2 "' message='" said "'/></testcase>\n"
}
