#!/usr/bin/env bash
# Prints a script that makes a tree: so many files of 1,000 bytes (60,000, unless a word says otherwise), a hundred in
# each directory, and so many semantic directories in the root (1,000) that ask for one word each. The third word is the
# order in which they come: "first" (the directories, the files, index), "between" (the files, the directories, index)
# or "last" (the files, index, the directories).
#
#   demo/orders.sh 60000 1000 last | ./hac --new "$(mktemp -d)/orders.hac" > replies
set -e
awk -v files="${1:-60000}" -v about="${2:-1000}" -v order="${3:-first}" '
# Words are numbered, and small numbers are drawn more often.
function draw() { seed = (seed * 1103515245 + 12345) % 2147483648; return seed / 2147483648 }
function word(number) { return sprintf("w%05d", number) }
function print_files(  dir, file, place, line) {
    for (dir = 0; dir < files / 100; dir++) print "mkdir /part" dir
    for (file = 0; file < files; file++) {
        line = "write /part" int(file / 100) "/note" file
        for (place = 0; place < 142; place++) line = line " " word(int(draw() ^ 2 * 20000))
        print line
    }
}
function print_directories(  number) {
    for (number = 0; number < about; number++) print "smkdir /about" number " " word(number * 19 % 20000)
}
BEGIN {
    seed = 7
    if (order == "first") print_directories()
    print_files()
    if (order == "last") print "index"
    if (order != "first") print_directories()
    if (order != "last") print "index"
}'
