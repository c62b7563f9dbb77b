#!/usr/bin/env bash
# Installs packages of Debian, for scripts that can do without them: tools/need_packages.sh PACKAGE..
# Ends with status 1, and says nothing, where that can't be done. Waits for an installation that another script began.
set -euo pipefail

install_them() {
  DEBIAN_FRONTEND=noninteractive apt-get install -y -q --no-install-recommends "$@" > /dev/null 2>&1
}

command -v apt-get > /dev/null
[ "$(id -u)" -eq 0 ]
exec 9> "${TMPDIR:-/tmp}/need_packages.lock"
flock 9
install_them "$@" || { apt-get update -q > /dev/null 2>&1 && install_them "$@"; }
