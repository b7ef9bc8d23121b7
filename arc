#!/usr/bin/env bash
# Runs the proved program. Words, standard input, output and status pass through.
#
# ./arc drill FILE    drills the script in a file, `./arc drill` that on standard input
# ./arc build         proves and builds the program first
#
# Where the program isn't built, the drill is tried: the same code, compiled without any proof, at each call anew.
set -u

here=$(cd "$(dirname "$(readlink -f "${BASH_SOURCE[0]}")")" && pwd)
source "$here/programs.sh"

if [ "$*" = build ]; then
  build arc
  exit
fi

if [ $# -eq 2 ] && [ "$1" = drill ] && [ "${2#-}" = "$2" ]; then
  # The program reads standard input; a file that can't be opened is its status 3.
  { exec <"$2"; } 2>/dev/null || exit 3
  set -- drill
fi

if is_built arc; then
  if is_older arc; then
    echo "arc: sources changed since this program was built; ./arc build proves and builds them" >&2
  fi
  exec "$(program_of arc)" "$@"
fi

echo "arc: this run isn't the proved program: it compiles the same sources without a proof, in about a minute and a half" >&2
echo "arc: ./arc build proves and builds the program, from nothing in about half an hour on four processors; after that it runs at once" >&2
try_unproved arc -- "$@"
