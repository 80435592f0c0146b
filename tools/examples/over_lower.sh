#!/bin/sh
# Plays on an overlay whose lower layer has the tree of the trace: in the place of uring_play, with its words, of which the last is the trace.
# What an overlay is mounted with more stands in OVERLAY, as redirect_dir=on,index=on. It needs to mount.
set -eu
player=${URING_PLAY:-uring_play}
directory=. before=
for word; do
    if [ "$before" = --directory ]; then directory=$word; fi
    before=$word
done
at=$(mktemp -d "$directory/over_lower.XXXXXX")
# Files of a ring are closed some time after its process has ended.
take_away() {
    for try in 1 2 3 4 5 6 7 8 9 10; do
        if ! mountpoint -q "$at/all" || umount "$at/all" 2> /dev/null; then break; fi
        sleep 0.2
    done
    rm -rf "$at"
}
trap take_away EXIT
trap 'exit 1' INT TERM
mkdir "$at/low" "$at/up" "$at/work" "$at/all"
tree=$("$player" --quiet --prepare --directory "$at/low" "$before")
mount -t overlay overlay -o "lowerdir=$tree,upperdir=$at/up,workdir=$at/work${OVERLAY:+,$OVERLAY}" "$at/all"
"$player" "$@" --prepared --directory "$at/all"
