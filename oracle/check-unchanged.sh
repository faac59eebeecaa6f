#!/bin/sh
# Holds the crate's 24 files here to the SHA-256 sums of the published ones (UNCHANGED.sha256).
set -eu
cd "$(dirname "$0")"
sha256sum --quiet --strict --check UNCHANGED.sha256
n=$(wc -l < UNCHANGED.sha256)
[ "$n" -eq 24 ]
echo "$n files of tantivy-columnar 0.27.0 are unchanged"
