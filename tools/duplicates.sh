#!/bin/sh
# The pairs of places in crates/*/src that share six lines or more, by the tool duplicates, which reads no .rt files: it is given copies named .rs.
rm -rf /tmp/dups && mkdir /tmp/dups
git ls-files 'crates/*/src/*.rt' | while read f; do mkdir -p /tmp/dups/$(dirname $f); cp $f /tmp/dups/${f%.rt}.rs; done
duplicates --repo /tmp/dups --min-lines 6 --most 200 --seconds 120
