#!/usr/bin/env bash
# Prints a script that makes a collection: so many files of 100 words each (2,000, unless a word says
# otherwise), 20 semantic directories, one index, and each of the directories listed twice.
#
#   demo/collection.sh 2000 | ./hac --new "$(mktemp -d)/collection.hac" > replies
set -e
awk -v files="${1:-2000}" '
# The words are those of a vocabulary of 1,000, drawn by a linear congruence, so each call prints the same.
function word() {
    seed = (seed * 69069 + 12345) % 4294967296
    return "w" int(seed / 4294967.296)
}
BEGIN {
    seed = 1
    for (file = 1; file <= files; file++) {
        line = "write /note" file
        for (i = 0; i < 100; i++) line = line " " word()
        print line
    }
    for (dir = 1; dir <= 20; dir++) print "smkdir /about" dir " " word()
    print "index"
    for (round = 1; round <= 2; round++)
        for (dir = 1; dir <= 20; dir++) print "sls /about" dir
}'
