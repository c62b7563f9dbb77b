#!/usr/bin/env bash
# Runs one tier of the gate, and prints the minutes that it took: tools/gate.sh before-commit | before-push | all
#
#   before-commit   proves the crates that differ from the last commit, and those that use them directly, over what earlier
#                   checks kept; reads the seeded bugs; tries the rows and the vectors, if the program is built
#   before-push     `rt ci` of the crates that differ from BASE [default: the upstream branch]: proofs from nothing, tests
#                   and must-fail edits. What passes is kept for the gate
#   all             the gate, .ci/run
set -euo pipefail
cd "$(dirname "$0")/.."

fail() {
  echo "gate: $*" >&2
  exit 2
}

# The crates with a file that differs from a commit, tracked or not.
changed_since() {
  { git diff --name-only "$1" -- crates; git ls-files --others --exclude-standard -- crates; } |
    cut -d / -f 2 | sort -u | while IFS= read -r crate; do
      [ ! -d "crates/$crate/src" ] || echo "$crate"
    done
}

# The named crates and those whose line in crates.txt lists one of them, lowest first.
with_users() {
  local pattern
  pattern=$(printf '%s|' "$@")
  pattern=${pattern%|}
  sed 's/#.*//' crates.txt | grep -E "^($pattern)\b|:.*\b($pattern)\b" | sed 's/[ :].*//'
}

before_commit() {
  local crate crates
  mapfile -t crates < <(changed_since HEAD)
  tools/mistakes.py --read
  tools/tested.py --read
  if [ ${#crates[@]} -gt 0 ]; then
    for crate in $(with_users "${crates[@]}"); do
      echo "gate: rt check in crates/$crate"
      (cd "crates/$crate" && rt fmt && rt check --test)
    done
  fi
  if [ -x crates/clockbed/out/clockbed ]; then
    tools/check_vectors.py
    tools/check_rows.py
  fi
}

before_push() {
  local base=${1:-} crates
  [ -n "$base" ] || base=$(git rev-parse '@{upstream}' 2> /dev/null) || fail "no upstream branch: name a commit, as in before-push main"
  mapfile -t crates < <(changed_since "$base")
  [ ${#crates[@]} -gt 0 ] || return 0
  rt ci "${crates[@]}"
}

began_at=$SECONDS
case "${1:-}" in
  before-commit) before_commit ;;
  before-push) before_push "${2:-}" ;;
  all) .ci/run ;;
  *) fail "usage: tools/gate.sh before-commit | before-push [BASE] | all" ;;
esac
echo "gate: $1 passed in $(((SECONDS - began_at + 59) / 60)) minutes"
