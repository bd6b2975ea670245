#!/usr/bin/env bash
# Everything that has to hold, from nothing. The last step is the prover's own gate, whose last line is 'N passed, M failed'.
set -euo pipefail
cd "$(dirname "$0")"
if ! command -v rt >/dev/null 2>&1; then
  echo "the Rattle kit is missing: put its command rt on the PATH (rt version tells which one this was proved with: docs/WORKING.md)" >&2
  exit 2
fi
step() { printf '\n== %s\n' "$1"; }

step "public calls: a promise and an only-outcome theorem for each, no requires"
python3 tools/calls

step "layout, proofs, wrong programs, programs"
said=$(mktemp)
trap 'rm -f "$said"' EXIT
rt ci 2>&1 | tee "$said"
# The gate lets a wrong program pass that cannot be applied or read. This repository does not.
if grep -q '^rt: ok.*, [0-9]* bad' "$said"; then
  echo "a wrong program does not fit the code: the lines 'BAD EDIT' above name it" >&2
  exit 1
fi
