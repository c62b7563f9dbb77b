#!/usr/bin/env bash
# Tries what the pages say on the built program: each command line of README.md and docs/ (tools/page_commands.py says
# how they are marked), and each scenario of examples/ with its report and its picture. Everything runs in copies of
# the checkout. CLOCKBED_PROGRAM names another program than the one that was built here.
#
#   tools/check_pages.sh                   in copies of the checkout
#   tools/check_pages.sh --archive FILE [PAGE..]
#                                          in the archive FILE (tools/release.sh), unpacked alone, with no rt on the PATH:
#                                          the command lines of these pages, or of all that it has
set -euo pipefail

top=$(cd "$(dirname "${BASH_SOURCE[0]}")/.." && pwd)
program=${CLOCKBED_PROGRAM:-$top/crates/clockbed/out/clockbed}
room=$(mktemp -d)
trap 'rm -rf "$room"' EXIT
faults=0

# A copy of the checkout in which the program counts as built.
fresh_copy() {
  mkdir -p "$1"
  tar -C "$top" --exclude=./.git --exclude=out -cf - . | tar -C "$1" -xf -
  mkdir "$1/crates/clockbed/out"
  cp "$program" "$1/crates/clockbed/out/clockbed"
}

check_page() {
  fresh_copy "$room/page"
  (cd "$room/page" && tools/page_commands.py "$1") || faults=$((faults + 1))
  rm -rf "$room/page"
}

check_example() {
  local name=${1%.toml}
  "$program" run < "$1" > "$room/report" 2> /dev/null || true
  if ! diff "$name.report" "$room/report"; then
    echo "check_pages: $name.report is not the report of $1" >&2
    faults=$((faults + 1))
  elif ! grep -q '^refused' "$room/report"; then
    "$program" run --json < "$1" | "$top/tools/picture.py" > "$room/picture"
    cmp "$name.svg" "$room/picture" || faults=$((faults + 1))
  fi
  if ! grep -q "${1#"$top"/}" "$top/docs/GALLERY.md"; then
    echo "check_pages: docs/GALLERY.md doesn't show $1" >&2
    faults=$((faults + 1))
  fi
}

check_checkout() {
  if [ ! -x "$program" ]; then
    echo "check_pages: $program is not there: build it by ./clockbed --prove" >&2
    exit 1
  fi
  program=$(realpath "$program")
  local scenario page
  for scenario in "$top"/examples/*.toml "$top"/examples/clocks/*.toml; do
    check_example "$scenario"
  done
  cd "$top"
  for page in README.md docs/*.md; do
    check_page "$page"
  done
}

# The PATH, in which each folder that has the toolchain's rt is one of links to all else in it.
path_without_rt() {
  local folder number=0 path=""
  while IFS= read -r -d : folder; do
    if [ -e "$folder/rt" ]; then
      number=$((number + 1))
      mkdir -p "$room/path/$number"
      find "$folder" -mindepth 1 -maxdepth 1 -not -name rt -exec ln -sf -t "$room/path/$number" {} +
      folder=$room/path/$number
    fi
    path=$path:$folder
  done <<< "$PATH:"
  echo "${path#:}"
}

check_archive_page() {
  mkdir "$room/page"
  tar -xzf "$1" -C "$room/page" --strip-components=1
  (cd "$room/page" && env -i HOME="$room" LANG=C.UTF-8 PATH="$2" "$top/tools/page_commands.py" "$3") || faults=$((faults + 1))
  rm -rf "$room/page"
}

check_archive() {
  local archive path page pages=()
  archive=$(realpath "$1")
  path=$(path_without_rt)
  if PATH=$path command -v rt > /dev/null; then
    echo "check_pages: rt is still on the PATH" >&2
    exit 1
  fi
  shift
  [ $# -gt 0 ] || mapfile -t pages < <(tar -tzf "$archive" | sed -n 's#^[^/]*/\(.*\.md\)$#\1#p')
  for page in "$@" "${pages[@]}"; do
    check_archive_page "$archive" "$path" "$page"
  done
}

if [ "${1:-}" = --help ]; then
  sed -n '2,/^set /s/^# \{0,1\}//p' "${BASH_SOURCE[0]}"
  exit 0
elif [ "${1:-}" = --archive ] && [ $# -ge 2 ]; then
  shift
  check_archive "$@"
else
  check_checkout
fi
echo "check_pages: $faults faults" >&2
[ "$faults" -eq 0 ]
