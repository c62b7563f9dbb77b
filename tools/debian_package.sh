#!/usr/bin/env bash
# Makes clockbed_VERSION_ARCHITECTURE.deb of the folder of an archive, for tools/release.sh:
# tools/debian_package.sh ARCHIVE_FOLDER VERSION FOLDER
#
# The program is /usr/bin/clockbed, byte for byte that of the archive. Pages, examples and tools are in
# /usr/share/clockbed, laid out as in the archive, so that the pages' command lines run in a copy of that folder. Debian's
# Python finds the package of python/ by a link.
set -euo pipefail

top=$(cd "$(dirname "${BASH_SOURCE[0]}")/.." && pwd)
archive=$1
version=$2
folder=$3
room=$(mktemp -d)
trap 'rm -rf "$room"' EXIT
umask 022

root=$room/clockbed
share=$root/usr/share
committed=$(git -C "$top" log -1 --format=%ct)
maintainer=$(git -C "$top" log -1 --format='%an <%ae>')
architecture=$(dpkg --print-architecture)

# The least C library that has all that the program asks of it.
least_libc() {
  grep -aoE 'GLIBC_[0-9.]+' "$archive/clockbed" | sed 's/GLIBC_//' | sort -uV | tail -n 1
}

lay_out() {
  mkdir -p "$root/usr/bin" "$share"/{clockbed,man/man1,bash-completion/completions,zsh/vendor-completions}
  mkdir -p "$share/doc/clockbed" "$share/lintian/overrides" "$root/DEBIAN"
  cp -R "$archive/." "$share/clockbed"
  mv "$share/clockbed/clockbed" "$root/usr/bin/clockbed"
  ln -s ../../bin/clockbed "$share/clockbed/clockbed"
  gzip -9n < "$share/clockbed/clockbed.1" > "$share/man/man1/clockbed.1.gz"
  rm "$share/clockbed/clockbed.1"
  mv "$share/clockbed/completions/clockbed.bash" "$share/bash-completion/completions/clockbed"
  mv "$share/clockbed/completions/_clockbed" "$share/zsh/vendor-completions/_clockbed"
  rmdir "$share/clockbed/completions"
  ln -s ../../clockbed/examples "$share/doc/clockbed/examples"
  ln -s ../../clockbed/docs "$share/doc/clockbed/docs"
  mkdir -p "$root/usr/lib/python3/dist-packages"
  ln -s ../../../share/clockbed/python/clockbed "$root/usr/lib/python3/dist-packages/clockbed"
}

write_control() {
  cat > "$root/DEBIAN/control" << END
Package: clockbed
Version: $version
Section: science
Priority: optional
Architecture: $architecture
Maintainer: $maintainer
Installed-Size: $(du -k -s --apparent-size "$root/usr" | cut -f 1)
Depends: libc6 (>= $(least_libc))
Recommends: python3
Suggests: python3-matplotlib, python3-pandas, jq
Description: testbed for Byzantine fault-tolerant clock synchronisation
 Runs a bench of up to 64 nodes, each with a small BPF program, in common
 pulses. Nodes can be correct, Byzantine, or corrupted between pulses. Reports
 say whether the clocks agree, and an explorer searches all runs of a small
 bench for a counterexample. The program is proved in Rattle; the file
 /usr/share/clockbed/PROVED names its commit and its toolchain.
END
}

write_documents() {
  cat > "$share/doc/clockbed/copyright" << END
Format: https://www.debian.org/doc/packaging-manuals/copyright-format/1.0/
Upstream-Name: clockbed
Upstream-Contact: $maintainer

Files: *
Copyright: $(git -C "$top" log -1 --format=%cd --date=format:%Y) $(git -C "$top" log -1 --format=%an)
License: unstated
 The repository of clockbed states no licence. Ask its maintainers before you
 distribute this package.
END
  gzip -9n > "$share/doc/clockbed/changelog.gz" << END
clockbed ($version) unstable; urgency=medium

  * Made of the archive of this version; /usr/share/clockbed/CHANGELOG.md has
    the changes.

 -- $maintainer  $(date -R -u -d "@$committed")
END
  cat > "$share/lintian/overrides/clockbed" << 'END'
# The program is packed as it was proved and built: its checksum is in /usr/share/clockbed/PROVED.
clockbed: unstripped-binary-or-object [usr/bin/clockbed]
END
}

lay_out
write_documents
write_control
find "$root" -exec touch -h -d "@$committed" {} +
package=$folder/clockbed_${version}_$architecture.deb
SOURCE_DATE_EPOCH=$committed dpkg-deb --root-owner-group -Zxz --build "$root" "$package" > /dev/null
echo "$package"
