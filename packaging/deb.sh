#!/usr/bin/env bash
# Makes a Debian package of the program that was built here, or else of that of release/, and says what it is called.
#
#   packaging/deb.sh [DIRECTORY]     the package is made there, or where you are
#
# PROGRAM in the environment names another program. Install it by: sudo dpkg -i streambox_VERSION_ARCHITECTURE.deb
set -euo pipefail
home=$(cd "$(dirname "$(readlink -f "$0")")/.." && pwd)
place=$(readlink -f "${1:-.}")
version=$(cat "$home/VERSION")
architecture=$(dpkg --print-architecture)
scratch=$(mktemp -d)
trap 'rm -rf "$scratch"' EXIT
umask 022
chmod 755 "$scratch"

make -s -C "$home" install PREFIX=/usr DESTDIR="$scratch" ${PROGRAM:+PROGRAM="$PROGRAM"}
# Debian has another directory for completions of zsh that come with packages.
mkdir -p "$scratch/usr/share/zsh/vendor-completions" "$scratch/DEBIAN"
mv "$scratch/usr/share/zsh/site-functions/_streambox" "$scratch/usr/share/zsh/vendor-completions"
rmdir "$scratch/usr/share/zsh/site-functions"
gzip -9n "$scratch/usr/share/man/man1/streambox.1"
cat > "$scratch/DEBIAN/control" << CONTROL
Package: streambox
Version: $version
Architecture: $architecture
Maintainer: $(git -C "$home" log -1 --format='%an <%ae>' 2> /dev/null || echo 'StreamBox <streambox@localhost>')
Installed-Size: $(du -sk "$scratch/usr" | cut -f 1)
Depends: libc6, bash, coreutils, util-linux
Section: utils
Priority: optional
Description: add up, count and join events by window of time and key
 StreamBox reads events as lines, out of order, and writes a row for each window
 of time and each key. Its rows depend on the lines and the plan alone; that is
 proved of the code that runs. With it come tools that make its lines of a log,
 and reports of its rows.
CONTROL
package=$place/streambox_${version}_$architecture.deb
dpkg-deb --root-owner-group --build "$scratch" "$package" > /dev/null
echo "$package"
