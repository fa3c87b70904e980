#!/usr/bin/env bash
# Prints a script that makes a tree: so many files of 20 words each (20,000, unless a word says
# otherwise) in 100 directories, 200 semantic directories in the root, of which 20 form a chain in
# which each names the one before, and 2,000 marks. Then come so many times (none, unless a word says
# otherwise) the listing of the last of the chain, and so many times the counts.
#
#   demo/links.sh 20000 10 0 | ./hac --new "$(mktemp -d)/links.hac" > replies
set -e
awk -v files="${1:-20000}" -v listings="${2:-0}" -v counts="${3:-0}" '
# Every second file has the word "apple". The others are of a vocabulary of 1,000, as in directories.sh.
function word(file, place) {
    return place == 0 && file % 2 == 0 ? "apple" : "w" (file * 7 + place * (file % 13 + 1)) % 1000
}
function path(file) { return "/part" file % 100 "/note" file }
BEGIN {
    for (dir = 0; dir < 100; dir++) print "mkdir /part" dir
    for (file = 0; file < files; file++) {
        line = "write " path(file)
        for (place = 0; place < 20; place++) line = line " " word(file, place)
        print line
    }
    print "smkdir /chain1 apple"
    for (link = 2; link <= 20; link++) print "smkdir /chain" link " {/chain" link - 1 "}"
    for (about = 0; about < 180; about++) print "smkdir /about" about " w" about * 5
    print "index"
    # Files with the word are kept out of directories of the chain, and others are added elsewhere.
    for (mark = 0; mark < 1000; mark++) print "srm " path(mark * 2) " /chain" mark % 20 + 1
    for (mark = 0; mark < 1000; mark++) print "sln " path(mark * 2 + 1) " /about" mark % 180
    for (round = 0; round < listings; round++) print "sls /chain20"
    for (round = 0; round < counts; round++) print "counts"
}'
