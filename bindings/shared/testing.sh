# shellcheck shell=bash
# To be sourced, by a script that sets `here` to the top of the repository: counts what passed and failed.
. "$here/bindings/shared/provide.sh"

passed=0 failed=0 left_out=()

# judge NAME WORD..: a command that has to end well; what it said is shown where it doesn't.
judge() {
  local said
  if said=$("${@:2}" 2>&1); then
    ((passed += 1))
  else
    ((failed += 1)) && printf 'failed: %s\n%s\n' "$1" "$said"
  fi
}

# equal NAME GOT EXPECTED
equal() {
  if [ "$2" = "$3" ]; then
    ((passed += 1))
  else
    ((failed += 1)) && printf 'failed: %s\n  it is       %s\n  it has to be %s\n' "$1" "$2" "$3"
  fi
}

# judge_unittest PYTHON FILE: counts the tests of a file.
judge_unittest() {
  local said ran bad
  said=$("$1" "$2" 2>&1)
  ran=$(sed -n 's/^Ran \([0-9]*\) test.*/\1/p' <<<"$said")
  bad=$(grep -Ec '^(FAIL|ERROR): ' <<<"$said")
  [ "$bad" = 0 ] && tail -n 1 <<<"$said" | grep -q '^OK' || { printf '%s\n' "$said" | tail -n 60; ((bad += bad == 0)); }
  ((failed += bad, passed += ran > bad ? ran - bad : 0))
}

# needs PACKAGE TEST..: whether a test holds, after Debian's package was installed where it didn't.
needs() {
  "${@:2}" >/dev/null 2>&1 && return
  provide "$1"
  "${@:2}" >/dev/null 2>&1 || { left_out+=("$1 is not there") && return 1; }
}

# Makes libflcol, if LIBRARY names none.
make_library() {
  [ "${LIBRARY:-}" ] || { "$here/library" >&2 && export LIBRARY=$here/out/library; }
}

finish() {
  printf 'left out: %s\n' "${left_out[@]}" | sed '/: $/d'
  printf '%s passed, %s failed\n' "$passed" "$failed"
  ((failed == 0))
}
