#!/bin/bash
# Runs the tests that need no proof, in about five minutes, and ends at the first failure:
# - that VERSION is the number everywhere, that FORMATS has the texts of the programs, and that all scripts can be parsed
# - the unit tests of the Python modules, their types and their layout
# - the answers worked out by hand, with the reference in Python, and with crates that are built without a proof
# - that the definitions and edits named by pages exist, that PROMISES has the numbers of the reading lists, that the pictures of LAYOUTS agree
#   with disks.py, and that no more files than today read the parts of a layout
# - that pages and messages keep to the limits of words.py, and that links lead to headings that exist
# - the commands of README as they are printed
# It skips what is not installed, and prints what it skips. After each step it prints the seconds that it took, and the seconds of processor time,
# which are fewer if other programs run.
# Usage: bench/check.sh [CRATE..], crates of tests; four quick ones if none is named
set -eu
cd "$(dirname "$0")/.."
crates=("$@")
[ $# -gt 0 ] || crates=(text_rows mark_rows image_rows layout_rows)
began=$SECONDS

# worked: sets `spent` to the processor time of this script and its steps so far, in seconds
worked() {
    local name whole
    spent=0
    times >"$log"
    for name in $(tail -n 1 "$log"); do
        whole=${name#*m}
        spent=$((spent + ${name%m*} * 60 + ${whole%.*}))
    done
}

# step NAME COMMAND..: runs the command, and prints how long it took
step() {
    local name=$1 from=$SECONDS before
    shift
    worked
    before=$spent
    "$@" || { echo "FAILED $name"; exit 1; }
    worked
    echo "ok $name: $((SECONDS - from)) s, processor time $((spent - before)) s"
}

# there COMMAND WHAT: succeeds if the command is installed; otherwise prints what is skipped
there() {
    PATH=$PATH:/usr/sbin command -v "$1" >/dev/null || { echo "skipped: $2 ($1 is not installed)"; return 1; }
}

scripts() {
    local name pythons=()
    for name in $(git ls-files bin bench hostile lib); do
        case $name:$(head -n 1 "$name") in
        *.py:* | *python3) pythons+=("$name") ;;
        *.sh:* | *.bash:* | *:"#!"*sh) bash -n "$name" || return 1 ;;
        esac
    done
    python3 -c 'import ast, sys; [ast.parse(open(name).read(), name) for name in sys.argv[1:]]' "${pythons[@]}"
}

types() (
    cd lib && mypy && mypy --strict --cache-dir /dev/null \
        ../bench/pages/{prose,private_words,words,links,layouts,reading_list,test_words,test_links,test_layouts,test_reading_list}.py &&
        { ! there flake8 "the layout of the modules" || flake8; }
)

units() (
    cd lib && python3 -B -m unittest discover -s tests -t . -q
)

pages_units() (
    cd bench/pages && python3 -B -m unittest -q test_words test_links test_layouts test_reading_list
)

rows() (
    cd "crates/$1" && rt try --test >"$log" 2>&1 || { tail -n 20 "$log"; return 1; }
    grep '^test result' "$log"
)

log=$(mktemp)
trap 'rm -f "$log"' EXIT
step "the version number" bench/pages/versions.py
step "the texts of --help and --version" bench/pages/texts.py
step "all scripts can be parsed" scripts
step "the unit tests of the Python modules" units
! there mypy "types" || step "types" types
step "answers worked out by hand, with the reference" hostile/differential/rows.py
step "the definitions named by pages" bench/pages/definitions.py --compare
step "the numbers of the reading lists" bench/pages/reading_list.py --compare
step "the edits that must fail" bench/pages/edits.py --compare
step "files that read parts of layouts" bench/pages/layouts.py --compare
step "the pictures of LAYOUTS" bench/pages/pictures.py
step "the tests of the scripts of pages" pages_units
step "plain words" bench/pages/words.py --compare
step "links between pages" bench/pages/links.py
if there rt "tests of crates"; then
    for name in "${crates[@]}"; do step "tests of $name" rows "$name"; done
fi
if [ ! -x crates/reraid/out/reraid ]; then
    echo "skipped: README as printed (crates/reraid/out/reraid is not built; run make build)"
elif there mke2fs "README as printed"; then
    step "README as printed" bench/pages/as_printed.py README.md
fi
worked
echo "all steps passed: $((SECONDS - began)) s, processor time $spent s"
