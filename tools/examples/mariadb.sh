#!/bin/sh
# mariadb.sh prepare    makes a data directory without InnoDB's files in the working directory
# mariadb.sh            runs a server on it, makes a table, fills it, and takes the server down
set -e
here=$PWD
aside=$(mktemp -d)
trap 'rm -rf "$aside"' EXIT
if [ "$1" = prepare ]; then
	mariadb-install-db --no-defaults --user="$(id -un)" --datadir="$here" --skip-test-db \
		--auth-root-authentication-method=normal >"$aside/said" 2>&1
	rm -rf ib* undo* aria_log.* performance_schema sys mysql mysql_upgrade_info
	exit
fi
mariadbd --no-defaults --user="$(id -un)" --datadir="$here" --socket="$aside/s" --pid-file="$aside/pid" \
	--skip-networking --skip-grant-tables --performance-schema=0 --skip-innodb-doublewrite \
	--innodb-use-native-aio=1 --innodb-page-size=4k --innodb-buffer-pool-size=8M \
	--innodb-log-file-size=4M --innodb-undo-tablespaces=0 \
	--innodb-data-file-path=ibdata1:5M:autoextend >"$aside/said" 2>&1 &
server=$!
for _ in $(seq 100); do
	mariadb-admin --no-defaults -S "$aside/s" ping >/dev/null 2>&1 && break
	sleep 0.2
done
mariadb --no-defaults -S "$aside/s" -u root -e "
	CREATE DATABASE d;
	CREATE TABLE d.t (a INT PRIMARY KEY, b CHAR(40)) ENGINE=InnoDB;
	INSERT INTO d.t VALUES (1, 'one'), (2, 'two');
	INSERT INTO d.t SELECT a + 2, b FROM d.t;
	INSERT INTO d.t SELECT a + 4, b FROM d.t;
	DELETE FROM d.t WHERE a > 6;
	SELECT count(*) FROM d.t;"
mariadb-admin --no-defaults -S "$aside/s" -u root shutdown
wait $server
