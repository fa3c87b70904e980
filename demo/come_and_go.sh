#!/usr/bin/env bash
# Prints a script in which a semantic directory that links one file is made and removed so many times (300,000, unless a
# word says otherwise). What it took is given back, so the memory of the run stays what it was:
#
#   demo/come_and_go.sh 300000 | /usr/bin/time -v ./hac --new "$(mktemp -d)/come_and_go.hac" > replies
set -e
awk -v times="${1:-300000}" '
BEGIN {
    print "write /note word"
    print "index"
    for (turn = 0; turn < times; turn++) {
        print "smkdir /about word"
        print "rmdir /about"
    }
}'
