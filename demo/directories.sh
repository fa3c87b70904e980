#!/usr/bin/env bash
# Prints a script that makes a tree: so many files of 100 words each (2,000, unless a word says
# otherwise), the same share of them in each of 100 directories, 10 semantic directories, one index,
# and each of the semantic directories listed 20 times.
#
#   demo/directories.sh 2000 | ./hac --new "$(mktemp -d)/directories.hac" > replies
set -e
awk -v files="${1:-2000}" '
# The words are those of a vocabulary of 1,000. Each file has its own first word and its own step from
# one word to the next, so each call prints the same.
function word(file, place) {
    return "w" (file * 7 + place * (file % 13 + 1)) % 1000
}
BEGIN {
    for (dir = 0; dir < 100; dir++) print "mkdir /part" dir
    for (file = 0; file < files; file++) {
        line = "write /part" file % 100 "/note" file
        for (place = 0; place < 100; place++) line = line " " word(file, place)
        print line
    }
    for (about = 0; about < 10; about++) print "smkdir /about" about " w" about * 97
    print "index"
    for (round = 0; round < 20; round++)
        for (about = 0; about < 10; about++) print "sls /about" about
}'
