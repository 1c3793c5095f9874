#!/bin/sh
# All minimal siphons of a net, by several processes at once, on several machines if need be.
#
#     examples/parallel-siphons.sh [PROCESSES [LEAVES]] < net.pnml
#
# A run of `pnmlstruct resume` meets at most LEAVES siphons and writes the classes in which the others are. Each class goes
# into a file of its own, and each file into a run of its own, PROCESSES of them at once, until no class is left. The lists
# of all runs are joined by sort; the last line is their number. No two runs find the same siphon, and none is lost: the
# law `trees_of_runs_are_one_search`. PROGRAM names the program, if it isn't bin/pnmlstruct, and NET the number of the net
# in the document, if it isn't 1.
#
# The runs are started by xargs, or by GNU parallel where xargs can't start several at once. Where MACHINES is set, GNU
# parallel starts them there: it is a list for its option --sshlogin, as `:,ada,bob`, of machines that see this folder,
# PROGRAM and TMPDIR under the same names; PROCESSES are then for each machine.
set -eu

here=$(cd "$(dirname "$0")/.." && pwd -P)
export PROGRAM="${PROGRAM:-$here/bin/pnmlstruct}"
export NET="${NET:-1}"

# Goes on with the classes of one file: a file for each class that is left, and one for the siphons that were found.
one_run() {
    name=${1##*/} # that of no other run, since it begins with that of the run which left the class
    cat "$FOLDER/document" "$1" | "$PROGRAM" resume --net "$NET" --sets "$LEAVES" > "$FOLDER/made/$name" || exit 255
    awk -v next_file="$FOLDER/next/$name" '
        NR == 1 { next }
        ended { if (ended++ > 1) print held; held = $0; next }
        $0 == "end" { ended = 1; next }
        $0 == "pending" { next }
        { file = next_file "." ++n; printf "pending\n%s\nend\n", $0 > file; close(file) }
    ' "$FOLDER/made/$name" > "$FOLDER/found/$name"
}

if [ "${1:-}" = --one ]; then
    one_run "$2"
    exit
fi

# Starts a run for each file, PROCESSES of them at once.
all_runs() {
    if [ -n "${MACHINES:-}" ]; then
        parallel -j "$processes" --halt now,fail=1 --sshlogin "$MACHINES" --env PROGRAM --env NET --env LEAVES --env FOLDER \
            sh "$script" --one
    elif echo | xargs -P 1 true 2> /dev/null; then
        xargs -n 1 -P "$processes" sh "$script" --one
    else
        parallel -j "$processes" --halt now,fail=1 sh "$script" --one
    fi
}

script=$here/examples/$(basename "$0")
processes=${1:-4}
export LEAVES="${2:-10000}"
FOLDER=$(mktemp -d)
export FOLDER
trap 'rm -rf "$FOLDER"' EXIT
mkdir "$FOLDER/now" "$FOLDER/made" "$FOLDER/next" "$FOLDER/found"
"$PROGRAM" canon > "$FOLDER/document"
: > "$FOLDER/now/0"

while [ -n "$(ls "$FOLDER/now")" ]; do
    find "$FOLDER/now" -type f | all_runs
    rm -r "$FOLDER/now" "$FOLDER/made"
    mv "$FOLDER/next" "$FOLDER/now"
    mkdir "$FOLDER/made" "$FOLDER/next"
done

find "$FOLDER/found" -type f -exec cat {} + > "$FOLDER/list"
LC_ALL=C sort "$FOLDER/list" | awk '{ print } END { print "siphons " NR }'
