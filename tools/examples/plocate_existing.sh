#!/bin/sh
# plocate_existing.sh prepare    makes 120 names, a database of them, and takes some away, in the working directory
# plocate_existing.sh            looks for names that are still there
set -e
if [ "$1" = prepare ]; then
	for number in $(seq 120); do
		mkdir -p "names/directory_$((number % 10))"
		: >"names/directory_$((number % 10))/file_$number"
	done
	updatedb.plocate --output "$PWD/names.db" --database-root "$PWD/names" --require-visibility no --prunepaths ''
	rm -r names/directory_3
	exit
fi
exec plocate --existing --database "$PWD/names.db" file_1
