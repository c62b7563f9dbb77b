#!/usr/bin/env bash
# Makes the archive and the Debian package twice and compares them, byte for byte. Then it unpacks the archive alone in
# fresh folders, with no rt on the PATH, and tries the pages there (tools/check_pages.sh --archive). It installs the
# package into a fresh root, asks lintian about it, and compares what is installed with the archive. Where dpkg-deb is
# missing there is no package. CLOCKBED_PROGRAM is as for tools/release.sh.
set -euo pipefail

top=$(cd "$(dirname "${BASH_SOURCE[0]}")/.." && pwd)
room=$(mktemp -d)
trap 'rm -rf "$room"' EXIT

say() {
  echo "check_release: $*"
}

must_be_same() {
  if ! cmp "$1" "$2"; then
    say "${1##*/} made twice isn't the same"
    exit 1
  fi
  say "${1##*/} made twice is the same"
}

# The second time from another folder and under another mask of permissions.
make_twice() {
  local made
  mkdir "$room/first" "$room/second"
  "$top/tools/release.sh" "$@" "$room/first" > /dev/null
  (umask 077 && cd / && "$top/tools/release.sh" "$@" "$room/second") > /dev/null
  for made in "$room"/first/*; do
    must_be_same "$made" "$room/second/${made##*/}"
  done
  archive=$(echo "$room"/first/*.tar.gz)
}

# lintian, installed where it is missing and that can be done.
ask_lintian() {
  if ! command -v lintian > /dev/null; then
    "$top/tools/need_packages.sh" lintian || true
  fi
  if ! command -v lintian > /dev/null; then
    say "lintian isn't asked, since it is missing and can't be installed"
    return
  fi
  lintian --fail-on error,warning --no-tag-display-limit "$package" 2> "$room/lintian" || {
    cat "$room/lintian"
    exit 1
  }
  say "$(lintian --version) has no error and no warning of ${package##*/}"
}

# As dpkg does it, in a root that has nothing else; the C library there is this system's.
install_package() {
  root=$room/root
  mkdir -p "$root"/var/lib/dpkg/{info,updates}
  touch "$root/var/lib/dpkg/status"
  if [ "$(id -u)" -eq 0 ]; then
    dpkg --root="$root" --force-depends --install "$package" > "$room/dpkg" 2>&1 || {
      cat "$room/dpkg"
      exit 1
    }
    dpkg --root="$root" --verify clockbed
  else
    dpkg-deb --extract "$package" "$root"
  fi
}

check_installed() {
  local share=$root/usr/share
  mkdir "$room/unpacked"
  tar -xzf "$archive" -C "$room/unpacked" --strip-components=1
  cmp "$root/usr/bin/clockbed" "$room/unpacked/clockbed"
  zcat "$share/man/man1/clockbed.1.gz" | cmp - "$room/unpacked/clockbed.1"
  cmp "$share/bash-completion/completions/clockbed" "$room/unpacked/completions/clockbed.bash"
  cmp "$share/zsh/vendor-completions/_clockbed" "$room/unpacked/completions/_clockbed"
  rm -r "$room/unpacked/clockbed.1" "$room/unpacked/completions"
  diff -r "$share/clockbed" "$room/unpacked"
  PYTHONPATH=$root/usr/lib/python3/dist-packages python3 -B -c 'import clockbed; clockbed.Bench().run()'
  say "what ${package##*/} installs is what the archive has"
  tar -C "$share" -hczf "$room/installed.tar.gz" clockbed
  "$top/tools/check_pages.sh" --archive "$room/installed.tar.gz" README.md docs/GALLERY.md
}

if command -v dpkg-deb > /dev/null; then
  make_twice --deb
  package=$(echo "$room"/first/*.deb)
  ask_lintian
  install_package
  check_installed
else
  say "no package is made, since dpkg-deb is missing"
  make_twice
fi
"$top/tools/check_pages.sh" --archive "$archive"
