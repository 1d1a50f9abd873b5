#!/bin/bash
# Installs the package on a fresh Debian 12, in a folder that debootstrap fills, by the two commands of README, and tries what is there: programs,
# versions, pages, manual pages, completions, the checkers that come with it, the first listing of README, and what is left once it is removed.
# Its last line says how many cases were as stated; status 1 where one was not.
# As root, with the Debian package debootstrap and a way to a mirror. Usage: hostile/chroot.sh [PACKAGE [FOLDER]]: the package, made by bench/making/deb.sh
# if none is named; a folder of debootstrap, which is used as it is where it is there
set -u
here=$(cd "$(dirname "$0")" && pwd)
top=$here/..
package=${1:-} folder=${2:-} cases=0 failed=0
own=
[ -n "$folder" ] || { folder=$(mktemp -d "${TMPDIR:-/var/tmp}/reraid-chroot.XXXXXX") && own=$folder; }
ended() {
    for name in dev/pts dev proc; do mountpoint -q "$folder/$name" && { umount "$folder/$name" 2>/dev/null || umount -l "$folder/$name"; }; done
    [ -z "$own" ] || rm -rf --one-file-system "$own"
}
trap ended EXIT
[ -n "$package" ] || package=$("$here/../bench/making/deb.sh" 2>/dev/null) || exit 2
[ -x "$folder/usr/bin/apt" ] || debootstrap --variant=minbase bookworm "$folder" >&2 || exit 2
cp "$package" "$folder/tmp" || exit 2
cp "$top/README.md" "$here/../bench/pages/as_printed.py" "$folder/tmp"
mount -t proc proc "$folder/proc" && mount --bind /dev "$folder/dev" && mount --bind /dev/pts "$folder/dev/pts" || exit 2

# inside COMMAND..: in the fresh Debian, with nothing of the words outside
inside() {
    chroot "$folder" /usr/bin/env -i HOME=/root PATH=/usr/sbin:/usr/bin:/sbin:/bin LC_ALL=C.UTF-8 DEBIAN_FRONTEND=noninteractive "$@" </dev/null
}

# as NAME COMMAND..: a case, which is as stated where the command ends with 0 in there
as() {
    local name=$1
    shift
    cases=$((cases + 1))
    if inside "$@" >"$folder/tmp/log" 2>&1; then
        echo "ok $name"
    else
        failed=$((failed + 1))
        echo "FAILED $name: $(tail -c 400 "$folder/tmp/log" | tr '\n' '|')"
    fi
}

version=$(cat "$top/VERSION")
inside apt-get update >/dev/null 2>&1
as "apt install" apt install -y "./tmp/$(basename "$package")"
for name in reraid reraid-nbd reraid-mount reraid-ranges reraid-try; do
    as "$name --version" sh -c "[ \"\$($name --version)\" = '$name $version' ]"
    as "$name --help" sh -c "$name --help | grep -q 'usage:'"
    as "manual page of $name" test -s "/usr/share/man/man1/$name.1.gz"
    as "completion of $name" bash -c "source /usr/share/bash-completion/completions/$name && complete -p $name"
done
for name in README.md CHANGELOG.md CONTRIBUTING.md docs/USING.md docs/RECIPES.md docs/SEARCH.md docs/IMAGES.md docs/COMMANDS.md docs/PLAN.md docs/LANDMARKS.md docs/STATUSES.md docs/REAL-DISKS.md examples/disks.py; do
    as "page $name" test -s "/usr/share/doc/reraid/$name"
done
for name in e2fsck xfs_repair btrfs ntfsfix pvck nbdfuse fusermount3 parallel; do
    as "$name came with it" sh -c "command -v $name"
done
as "no package is broken" apt-get check
as "reraid without words" sh -c "! reraid 2>&1 | grep -vq 'word 1 is not understood'"
# A page as it is printed, by the programs that are installed; its folder of the programs is not there.
as "the first listing of README" sh -c 'cd /tmp && sed "/^    \$ export PATH=/s,=.*,=/usr/share/doc/reraid/examples:\$PATH," README.md > page.md &&
    mkdir -p bench/pages && mv as_printed.py bench/pages && python3 bench/pages/as_printed.py page.md'
as "apt remove" apt-get purge -y reraid
as "nothing is left" sh -c '! find / -xdev -path /tmp -prune -o -name "*reraid*" -print | grep .'
echo "$(basename "$package"): $cases cases, $failed not as stated"
[ "$failed" = 0 ]
