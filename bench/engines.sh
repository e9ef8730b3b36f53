# shellcheck shell=bash
# To be sourced by bench/engines, which sets `here`, and has `on`, `start_cluster` and `room`: how each engine is loaded and asked.

# best ENGINE STATEMENT: the least of three times, in milliseconds.
best() {
  local round && for round in 1 2 3; do "time_$1" "$2"; done | sort -g | head -n 1
}

tell() {
  printf '| %s | %s |' "$1" "$2"
}

# said_load MEGABYTES SECONDS
said_load() {
  printf ' %.0f MB | %.1f s |' "$1" "$2"
}

# ask ENGINE STATEMENT..: how long each question takes; what the first four answer has to be alike in each form.
ask() {
  local statement answer=()
  for statement in "${@:2:4}"; do answer+=("$("answer_$1" "$statement")"); done
  answers+=("${answer[*]}")
  for statement in "${@:2}"; do printf ' %.2f ms |' "$(best "$1" "$statement")"; done
  echo
}

# ---- PostgreSQL ----

time_postgres() {
  printf '%s\n' 'SET max_parallel_workers_per_gather = 0;' 'SET jit = off;' '\o /dev/null' '\timing on' "$1;" | on one |
    sed -n 's/^Time: \([0-9.]*\) ms.*/\1/p'
}

answer_postgres() {
  on one -c "$1"
}

# load COLUMNS STATEMENT: makes and fills a table, and says its size and how long that takes.
load() {
  local time
  on one -c 'SET client_min_messages = warning' -c 'DROP TABLE IF EXISTS held' -c "CREATE TABLE held ($1)" || exit
  time=$(time_postgres "INSERT INTO held $2")
  on one -c 'VACUUM ANALYZE held' -c CHECKPOINT
  said_load "$(on one -c "SELECT pg_table_size('held') / 1e6")" "$(awk "BEGIN { print $time / 1000 }")"
}

# ranged FORM STATEMENT: a row of the table of bounds.
ranged() {
  answers+=("$(on one -c "$2")")
  printf '| %s | %.2f ms |\n' "$1" "$(best postgres "$2")"
}

# ---- SQLite ----

build_sqlite() {
  make -s -C "$here/bindings/sqlite" LIBRARY="$room/library" OUT="$room/sqlite" >"$room/log" 2>&1 || { cat "$room/log"; return 1; }
}

# sqlite FORM LINE..: commands of the shell, and statements, on the form's file.
sqlite() {
  printf '%s\n' ".load $room/sqlite/flcol" "${@:2}" | sqlite3 -batch "$room/$1.db"
}

# The processor's time, which the shell of SQLite says to the microsecond; of a statement on data that are cached it is all.
timed_by_sqlite() {
  sqlite "$1" '.timer on' "$2;" | awk '/^Run Time:/ { print 1000 * ($6 + $8) }'
}

time_sqlite_plain() { timed_by_sqlite plain "$1"; }
time_sqlite_chunks() { timed_by_sqlite chunks "$1"; }
answer_sqlite_plain() { sqlite plain "$1;"; }
answer_sqlite_chunks() { sqlite chunks "$1;"; }

# load_sqlite FORM LINE..: makes and fills a table.
load_sqlite() {
  local begun=$EPOCHREALTIME
  rm -f "$room/$1.db"
  sqlite "$1" 'PRAGMA journal_mode = off;' 'PRAGMA synchronous = off;' "${@:2}" >"$room/log" || { cat "$room/log" && exit 1; }
  said_load "$(awk "BEGIN { print $(stat -c %s "$room/$1.db") / 1e6 }")" "$(awk "BEGIN { print $EPOCHREALTIME - $begun }")"
}

# ---- ClickHouse ----

has_clickhouse() {
  command -v clickhouse-server >/dev/null && command -v clickhouse-client >/dev/null
}

clickhouse() {
  clickhouse-client --port "$port" "${@:2}" --query "$1"
}

time_clickhouse() {
  clickhouse "$1" --time 2>&1 >/dev/null | awk '{ print 1000 * $1 }'
}

answer_clickhouse() {
  clickhouse "$1" | tr '\t' '|'
}

# A server of its own, by one thread a query, where it is installed.
start_clickhouse() {
  local at=$room/clickhouse try
  has_clickhouse || { echo 'ClickHouse is not there' && return; }
  mkdir -p "$at/data" && port=$((20000 + $$ % 20000))
  cat >"$at/config.xml" <<END
<yandex>
  <logger><level>warning</level><log>$at/log</log><errorlog>$at/errors</errorlog></logger>
  <tcp_port>$port</tcp_port><listen_host>127.0.0.1</listen_host>
  <path>$at/data/</path><tmp_path>$at/data/tmp/</tmp_path><mark_cache_size>1000000000</mark_cache_size>
  <users_config>$at/config.xml</users_config><default_profile>default</default_profile><default_database>default</default_database>
  <profiles><default><max_threads>1</max_threads></default></profiles><quotas><default></default></quotas>
  <users><default><password></password><networks><ip>127.0.0.1</ip></networks><profile>default</profile><quota>default</quota></default></users>
</yandex>
END
  clickhouse-server --config-file="$at/config.xml" >"$at/said" 2>&1 &
  clickhouse_server=$!
  for try in {1..100}; do clickhouse 'SELECT 1' >/dev/null 2>&1 && return || sleep 0.2; done
  cat "$at/said" "$at/errors" && return 1
}

# The rows come from PostgreSQL's plain table.
load_clickhouse() {
  local begun
  clickhouse 'DROP TABLE IF EXISTS held' && clickhouse 'CREATE TABLE held (i Int64, x Int64, y Int64) ENGINE = MergeTree ORDER BY i' || exit
  begun=$EPOCHREALTIME
  clickhouse 'INSERT INTO held FORMAT CSV' <"$room/rows.csv" && clickhouse 'OPTIMIZE TABLE held FINAL' || exit
  said_load "$(clickhouse "SELECT sum(bytes_on_disk) / 1e6 FROM system.parts WHERE active AND table = 'held'")" \
    "$(awk "BEGIN { print $EPOCHREALTIME - $begun }")"
}

end_engines() {
  [ "${clickhouse_server:-}" ] && kill "$clickhouse_server" && wait "$clickhouse_server" 2>/dev/null
  end_clusters
}
