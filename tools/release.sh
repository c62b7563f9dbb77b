#!/usr/bin/env bash
# Makes clockbed-VERSION.tar.gz: the built program with its manual page, the Python package, examples, pages, the tools
# and READMEs that the pages name, and a text that says what proved it. Made twice of one commit and one program it is the same, byte for byte.
#
#   tools/release.sh [--deb] [FOLDER]      FOLDER is where the archive goes (here: the current folder)
#
# With --deb it makes clockbed_VERSION_ARCHITECTURE.deb of the same files too. The program is built by ./clockbed --prove.
# CLOCKBED_PROGRAM names another program, to try the archive: its text then says that nothing is known of the program.
set -euo pipefail

top=$(cd "$(dirname "${BASH_SOURCE[0]}")/.." && pwd)
wants_deb=""
if [ "${1:-}" = --deb ]; then
  wants_deb=yes
  shift
fi
folder=$(cd "${1:-.}" && pwd)
program=$(realpath "${CLOCKBED_PROGRAM:-$top/crates/clockbed/out/clockbed}")
room=$(mktemp -d)
trap 'rm -rf "$room"' EXIT
umask 022

packed=(README.md CHANGELOG.md CONTRIBUTING.md docs examples completions {benchmarks,rows,tools,vectors}/README.md
  python/{clockbed,pyproject.toml,build_wheel.py})
tools=(tools/{picture,play,plot,readings,built_program,distances,check_table,rule_meaning,rule_text}.py tools/play.html
  tools/{python_package,exercises,grade}.py
  tools/{find,find_randomised,counter_formula,counter_refinement,counter_rule,check_proof,worst_run}.py
  tools/{all_sizes,certificates,claims_text,quorum_formula,sketches,small_benches,step_formulas,symbolic}.py tools/README.md 'tools/lab*')

say() {
  echo "release: $*" >&2
  exit 1
}

must_be_proved() {
  local newer
  newer=$(find "$top/crates.txt" "$top"/crates/*/{src,specs,proofs} -newer "$program" -print -quit 2> /dev/null || true)
  [ -z "$newer" ] || say "the program is older than $newer: ./clockbed --prove"
}

what_proved_it() {
  if [ -n "${CLOCKBED_PROGRAM:-}" ]; then
    echo "$version, of a program that CLOCKBED_PROGRAM named: a trial of the archive, which says nothing of the program."
  else
    cat << END
$version, built from commit $(git -C "$top" rev-parse HEAD)
by the toolchain $(rt version).

Every function of it was proved before it was built; README.md says what is proved, and docs/TRUST.md what is trusted.
It is one file, which needs the C library alone: $(uname -s) on $(uname -m).
END
  fi
  echo
  (cd "$1" && sha256sum clockbed)
}

# Every file of the archive in the folder $1.
lay_out() {
  local files
  mapfile -t files < <(git -C "$top" ls-files "${packed[@]}" "${tools[@]}")
  mkdir -p "$1"
  install -m 755 "$program" "$1/clockbed"
  git -C "$top" archive HEAD "${files[@]}" | tar -x -C "$1" --no-same-permissions
  "$top/tools/man_page.py" "$program" > "$1/clockbed.1"
  what_proved_it "$1" > "$1/PROVED"
}

pack() {
  tar -C "$room" --sort=name --owner=0 --group=0 --numeric-owner --mtime="@$committed" -cf - "$name" |
    gzip -9n > "$folder/$name.tar.gz"
  echo "$folder/$name.tar.gz"
}

[ -z "$(git -C "$top" status --porcelain)" ] || say "the checkout has changes that aren't committed"
[ -x "$program" ] || say "the program isn't built: ./clockbed --prove"
[ -n "${CLOCKBED_PROGRAM:-}" ] || must_be_proved

version=$("$program" --version | sed -n 1p)
name=${version// /-}
committed=$(git -C "$top" log -1 --format=%ct)
lay_out "$room/$name"
pack
if [ -n "$wants_deb" ]; then
  "$top/tools/debian_package.sh" "$room/$name" "${version#* }" "$folder"
fi
