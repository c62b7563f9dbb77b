#!/usr/bin/env bash
# Reads all scripts: shellcheck for those of bash, pyflakes for those of Python, and whether tools/README.md lists each
# file of tools/. What isn't installed is installed from Debian, or left out, and that is said.
set -euo pipefail
cd "$(dirname "$0")/.."

say() {
  echo "check_scripts: $*"
}

# Whether the command $1 of the package $2 is there.
have() {
  command -v "$1" > /dev/null || tools/need_packages.sh "$2" || { say "left out: $1 isn't installed"; return 1; }
}

mapfile -t shell < <(git ls-files '*.sh' clockbed .ci/run)
mapfile -t python < <(git ls-files '*.py')
if have shellcheck shellcheck; then shellcheck -S warning "${shell[@]}"; fi
if have pyflakes3 pyflakes3; then pyflakes3 "${python[@]}"; fi
missing=0
while read -r file; do
  grep -q "^| \`$file\`" tools/README.md || { say "tools/README.md doesn't list $file"; missing=1; }
done < <(git ls-files tools | sed 's|^tools/||; s|/.*||' | grep -v '^README.md$' | sort -u)
say "${#shell[@]} scripts of bash, ${#python[@]} of Python"
exit $missing
