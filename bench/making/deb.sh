#!/bin/sh
# Makes a Debian package of all that `make put` installs, with dpkg-deb, and prints its name. Two packages of one commit and one build are equal in
# every byte. The programs keep their symbols.
# Usage: bench/making/deb.sh [FOLDER], the folder for the package: out by default
set -eu
umask 022
top=$(cd "$(dirname "$0")/../.." && pwd)
for name in reraid reraid_nbd; do
    [ -x "$top/crates/$name/out/$name" ] || { echo "deb.sh: $top/crates/$name/out/$name is not built: run make build" >&2; exit 1; }
done
mkdir -p "${1:-$top/out}"
folder=$(cd "${1:-$top/out}" && pwd)
tree=$(mktemp -d)
trap 'rm -rf "$tree"' EXIT
chmod 755 "$tree"

# The version is that of VERSION, followed by the number of commits if there is a git history.
version=$(cat "$top/VERSION")
if SOURCE_DATE_EPOCH=$(git -C "$top" log -1 --format=%ct 2>/dev/null); then
    version=$version+$(git -C "$top" rev-list --count HEAD)
else
    SOURCE_DATE_EPOCH=$(date -u -d "$(sed -n 's/^\.TH RERAID 1 "\([0-9-]*\)".*/\1/p' "$top/docs/reraid.1")" +%s)
fi
export SOURCE_DATE_EPOCH
machine=$(dpkg --print-architecture)

make -s -C "$top" put DESTDIR="$tree" PREFIX=/usr
gzip -9n "$tree"/usr/share/man/man1/*.1

pages=$tree/usr/share/doc/reraid
cat >"$pages/copyright" <<END
reraid $version, made from its sources by bench/making/deb.sh. The sources name no licence.
END
printf 'reraid (%s) unstable; urgency=low\n\n  * CHANGELOG.md says what changed.\n\n -- %s  %s\n' "$version" \
    "Gulchtray maintainers <maintainers@users.noreply.gulchtray.example>" "$(date -R -u -d "@$SOURCE_DATE_EPOCH")" |
    gzip -9n >"$pages/changelog.Debian.gz"

# The C library that the program needs, by the versions of its symbols.
library=$(cat "$tree"/usr/bin/reraid "$tree"/usr/libexec/reraid/reraid-nbd | grep -ao 'GLIBC_[0-9][0-9.]*' | sort -uV | tail -n 1)
control=$tree/DEBIAN
install -d "$control"
size=$(du -sk --apparent-size --exclude=DEBIAN "$tree" | cut -f 1)
(cd "$tree" && find usr -type f -print0 | sort -z | xargs -0 md5sum) >"$control/md5sums"
cat >"$control/control" <<END
Package: reraid
Version: $version
Architecture: $machine
Maintainer: Gulchtray maintainers <maintainers@users.noreply.gulchtray.example>
Installed-Size: $size
Depends: libc6 (>= ${library#GLIBC_}), python3 (>= 3.10)
Recommends: btrfs-progs, e2fsprogs, fuse3, libnbd-bin, lvm2, ntfs-3g, parallel, util-linux, xfsprogs
Suggests: bash-completion, dosfstools, ewf-tools, exfatprogs, gdisk, gddrescue, jfsutils, jq, nbdkit, pv, qemu-utils, reiserfsprogs
Section: admin
Priority: optional
Description: find the geometry of a RAID array from raw images of its disks
 reraid lists every layout of a RAID 0, 4, 5, 6 or 10 in its search range that
 passes its tests, writes the volume of one, and rebuilds a missing disk. It
 needs no metadata of the array, and only reads the images. It does not choose
 among the layouts. Each function of it is proved to meet its contract.
 .
 reraid-try does all steps, from images to volumes that file system checkers
 have read. reraid-mount shows a volume as a file, reraid-nbd as a network block
 device. reraid-ranges divides large searches.
END
name=reraid_${version}_$machine.deb
dpkg-deb --root-owner-group -Zxz --build "$tree" "$folder/$name" >&2
echo "$folder/$name"
