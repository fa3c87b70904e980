#!/usr/bin/env bash
# Plays two sessions on one store, in a folder that is thrown away: the second finds what the first made.
set -e
cd "$(dirname "$0")/.."
made="$(mktemp -d)"
trap 'rm -rf "$made"' EXIT
# Two commands of the first are refused, so it ends with status 1.
./hac --new "$made/notes.hac" <demo/first.script || [ $? -eq 1 ]
./hac "$made/notes.hac" <demo/later.script
