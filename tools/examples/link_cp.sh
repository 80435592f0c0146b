#!/bin/sh
# link_cp.sh prepare    makes a file in the working directory
# link_cp.sh            copies it by link-cp of liburing's examples (in Debian's liburing-dev): each part by a chain of a read and a write
set -e
if [ "$1" = prepare ]; then
	seq 9000 >from
	exit
fi
aside=$(mktemp -d)
trap 'rm -rf "$aside"' EXIT
cc -o "$aside/link-cp" /usr/share/doc/liburing-dev/examples/link-cp.c -luring
"$aside/link-cp" from to
