#!/bin/sh
# Puts files into a folder with a mode: each is written beside its place and then renamed. So a program that runs is replaced, and goes on with what
# it began with, and whoever starts it meanwhile finds the old one or the new one.
# Usage: bench/making/put.sh MODE FILE.. FOLDER
set -eu
[ $# -ge 3 ] || { sed -n 's/^# \(Usage.*\)/\1/p' "$0" >&2; exit 2; }
mode=$1
shift
for folder; do :; done
install -d "$folder"
while [ $# -gt 1 ]; do
    part=$folder/.${1##*/}.$$
    trap 'rm -f "$part"' EXIT
    install -m "$mode" "$1" "$part"
    mv -fT "$part" "$folder/${1##*/}"
    shift
done
