#!/usr/bin/env bash
# Prints the digest of the sources that the program is proved and built from: crates/ and crates.txt, without what builds
# leave there (directories named out). It is the SHA-256 of the list of their files, each with its own. It needs no git.
#
#   release/digest.sh [DIRECTORY]     of the sources there, or of these
set -euo pipefail
cd "${1:-$(dirname "$(readlink -f "$0")")/..}"
find crates crates.txt -name out -prune -o -type f -print0 | LC_ALL=C sort -z | xargs -0 sha256sum | sha256sum | cut -d ' ' -f 1
