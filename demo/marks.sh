#!/usr/bin/env bash
# Prints a script of as many files as the first word says (20,000), in 100 directories, of a semantic directory that
# finds them all, of an `index`, and of an `srm` for each file.
count="${1:-20000}"
awk -v count="$count" 'BEGIN {
    for (n = 0; n < 100; n++) print "mkdir /d" n
    for (n = 0; n < count; n++) print "write /d" n % 100 "/f" n " apple"
    print "smkdir /apples apple\nindex"
    for (n = 0; n < count; n++) print "srm /d" n % 100 "/f" n " /apples"
}'
