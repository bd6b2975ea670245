#!/usr/bin/env bash
# The demonstration on your text: reads at most 4,096 bytes from standard input and writes the merged ids. The program is proved and built first.
set -eu
cd "$(dirname "$0")"
if ! command -v rt >/dev/null 2>&1; then
  echo "the Rattle kit is missing: put its command rt on the PATH" >&2
  exit 2
fi
said=$(mktemp)
trap 'rm -f "$said"' EXIT
(cd crates/demo && rt run) </dev/null >"$said" 2>&1 || { cat "$said" >&2; exit 1; }
crates/demo/out/demo
