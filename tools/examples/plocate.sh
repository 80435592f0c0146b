#!/bin/sh
# plocate.sh prepare    makes 300 names in /tmp/names, and a database of them in the working directory
# plocate.sh            looks for some of them in the database
set -e
if [ "$1" = prepare ]; then
	names=/tmp/names
	mkdir "$names"
	trap 'rm -rf "$names"' EXIT
	for number in $(seq 300); do
		mkdir -p "$names/directory_$((number % 20))"
		: >"$names/directory_$((number % 20))/file_$number"
	done
	updatedb.plocate --output "$PWD/names.db" --database-root "$names" --require-visibility no --prunepaths ''
	exit
fi
exec plocate --database "$PWD/names.db" file_12
