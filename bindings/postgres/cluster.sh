# shellcheck shell=bash
# To be sourced, by a script that sets `here` to the top of the repository: PostgreSQL servers in a temporary folder,
# which nobody else sees. They run from a copy of the installed PostgreSQL that has the extension, so that nothing of
# the system is written; they listen on a unix socket alone, and `end_clusters` stops them.

# Whoever runs the servers: PostgreSQL refuses to be run by root.
server_user() {
  if [ "$(id -u)" != 0 ]; then id -un; elif id postgres >/dev/null 2>&1; then echo postgres; else echo nobody; fi
}

as_user() {
  if [ "$(id -u)" != 0 ]; then "$@"; else runuser -u "$(server_user)" -- "$@"; fi
}

# Copies what is installed to $room/usr, builds the extension and puts it there. LIBRARY is where libflcol is.
install_copy() {
  local installed config library
  config=$(pg_config_of_server) && installed=$("$config" --bindir)
  room=$(mktemp -d) && chmod 755 "$room" && library=$room/library
  binaries=$room$installed
  mkdir -p "$binaries" "$room$("$config" --pkglibdir)" "$room$("$config" --sharedir)" &&
    cp -a "$installed/." "$binaries" && cp -a "$("$config" --pkglibdir)/." "$room$("$config" --pkglibdir)" &&
    cp -a "$("$config" --sharedir)/." "$room$("$config" --sharedir)" &&
    cp -aL "${LIBRARY:-$here/out/library}" "$library" &&
    mkdir "$room/bindings" && cp -a "$here/bindings/shared" "$here/bindings/postgres" "$room/bindings" &&
    make -C "$room/bindings/postgres" clean install PG_CONFIG="$config" LIBRARY="$library" DESTDIR="$room" >"$room/log" 2>&1 ||
    { cat "$room/log"; return 1; }
  chown -R "$(server_user)" "$room/bindings"
  mkdir "$room/clusters" && chown "$(server_user)" "$room/clusters"
}

# The pg_config of the newest server that is installed.
pg_config_of_server() {
  ls -d /usr/lib/postgresql/*/bin/pg_config 2>/dev/null | sort -V | tail -n 1 | grep . || command -v pg_config
}

# start_cluster NAME SETTING..: a new cluster, and its server with these settings.
start_cluster() {
  local at=$room/clusters/$1 setting
  as_user "$binaries/initdb" -D "$at" -U postgres --auth=trust --no-sync >"$room/log" 2>&1 || { cat "$room/log"; return 1; }
  {
    echo "listen_addresses = ''"
    echo "unix_socket_directories = '$at'"
    for setting in "${@:2}"; do echo "$setting"; done
  } >>"$at/postgresql.conf"
  as_user "$binaries/pg_ctl" -D "$at" -l "$at/log" -w start >"$room/log" 2>&1 || { cat "$room/log" "$at/log"; return 1; }
}

# on NAME WORD..: psql on a cluster.
on() {
  "$binaries/psql" -h "$room/clusters/$1" -U postgres -XqAt "${@:2}"
}

end_clusters() {
  local at
  for at in "$room"/clusters/*/; do as_user "$binaries/pg_ctl" -D "$at" -m immediate stop >"$room/log" 2>&1; done
  rm -rf "$room"
}
