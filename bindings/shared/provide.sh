# shellcheck shell=bash
# To be sourced. provide PACKAGE: installs a package of Debian where that may be done.
provide() {
  [ "$(id -u)" = 0 ] && command -v apt-get >/dev/null && {
    apt-get install -y -qq "$1" || { apt-get update -qq && apt-get install -y -qq "$1"; }
  } >/dev/null 2>&1
}
