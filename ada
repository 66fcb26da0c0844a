#!/usr/bin/env bash
# Runs the Ada compiler on the words that it is given, wherever the user stands: the program that was proved from these
# sources, or, until there is one, what the toolchain compiles of them without a proof, once, and then keeps. The words, the
# input, the output and the status pass through; 125 says that there is no program to run. Beyond what the program says it
# speaks where err is a terminal alone, and where it is asked to: help, explain, about, build.
here=$(cd "$(dirname "$(readlink -f "${BASH_SOURCE[0]}")")" && pwd) || exit 125
crate=$here/crates/ada_cmd
rules=$here/docs/LANGUAGE.md

# Says something where a person reads it.
say() {
  [ -t 2 ] && echo "ada: $*" >&2
}

# Ends, since there is no program to run.
fail() {
  echo "ada: $*" >&2
  exit 125
}

. "$here/script/shown" && . "$here/script/programs" && . "$here/script/compile" && . "$here/script/build" || exit 125

# Ends with what the program comes to, whose err is captured where a person reads it, so that more can be said of it.
run() {
  local said
  if [ -t 2 ]; then
    { said=$("$program" "$@" 2>&1 >&3 3>&-); } 3>&1
    finish $? "$said"
  elif [ -n "$work" ]; then
    # It stands in a folder that goes when this script ends.
    "$program" "$@"
    exit
  else
    exec "$program" "$@"
  fi
}

# What has no room in a file that may not grow is a fault of writing, which the program answers, and no signal.
trap '' XFSZ

case $#:${1-} in
0: | 1:-h | 1:--help | 1:help) help ;;
1:explain) list_rules ;;
2:explain) explain "$2" ;;
1:about) about ;;
1:build) build ;;
*)
  if find_proved; then
    run "$@"
  elif [ "${ADA_PROVED-}" = 1 ]; then
    fail "no proved program is built (ada build), and ADA_PROVED asks for one"
  elif find_kept || compile; then
    say "not proved (ada about)"
    run "$@"
  else
    try_once "$@"
  fi
  ;;
esac
