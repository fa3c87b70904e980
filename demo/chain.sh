#!/usr/bin/env bash
# Prints a script that makes 1,000 files and a chain of 999 semantic directories, each of which names
# the one before. Then come so many times (none, unless a word says otherwise) the listing of the last
# one, and so many times a move of the first under the last, which is refused.
#
#   demo/chain.sh 1 0 | ./hac --new "$(mktemp -d)/chain.hac" > replies
set -e
awk -v listings="${1:-0}" -v moves="${2:-0}" 'BEGIN {
    print "mkdir /notes"
    for (file = 0; file < 1000; file++) printf "write /notes/%03d apple\n", file
    print "index\nsmkdir /chain1 apple"
    for (link = 2; link <= 999; link++) print "smkdir /chain" link " {/chain" link - 1 "}"
    for (round = 0; round < listings; round++) print "sls /chain999"
    for (round = 0; round < moves; round++) print "mv /chain1 /chain999/chain1"
}'
