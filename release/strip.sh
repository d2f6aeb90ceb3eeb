#!/usr/bin/env bash
# Strips a program as that of a release is stripped.
#
#   release/strip.sh PROGRAM STRIPPED
set -euo pipefail
strip --strip-all --remove-section=.comment --remove-section=.note.gnu.build-id -o "$2" "$1"
