# What ./arc and ./stories share: how a program of this repository is found, built and, where it isn't built, tried.
# It is read by `source`. `here` is the repository's top; each function takes the name of a program's crate.

program_of() {
  echo "$here/crates/$1/out/$1"
}

is_built() {
  [ -x "$(program_of "$1")" ]
}

# Whether a source of the program, or of a library below it, changed since the program was built.
is_older() {
  local crate
  local -a sources=("$here/crates.txt")
  for crate in "$1" $(libraries_below "$1"); do
    for part in src specs proofs; do
      [ -d "$here/crates/$crate/$part" ] && sources+=("$here/crates/$crate/$part")
    done
  done
  [ -n "$(find "${sources[@]}" -type f -newer "$(program_of "$1")" -print -quit)" ]
}

# The libraries of this repository that a crate stands on, each behind those that it stands on itself.
libraries_below() {
  awk -v top="$1" '
    /^[a-z0-9_]+:/ { name = $1; sub(/:.*/, "", name); sub(/^[^:]*:/, ""); uses[name] = $0 }
    function mark(name,    parts, n, i) {
      if (!(name in uses) || name in wanted) return
      wanted[name] = 1
      n = split(uses[name], parts, " ")
      for (i = 1; i <= n; i++) mark(parts[i])
      if (name != top) print name
    }
    END { mark(top) }' "$here/crates.txt"
}

minutes_since() {
  echo "$(((SECONDS - $1) / 60)) minutes so far"
}

# Proves all crates, as many side by side as the toolchain finds room for, with a line for each that is proved, and then builds
# the program.
build() {
  local crate=$1 start=$SECONDS number=0 count log line name
  count=$(grep -c '^[a-z0-9_]*:' "$here/crates.txt")
  log=$(mktemp) || return 1
  echo "arc: proving $count crates and building $crate; from nothing this takes about half an hour on four processors" >&2
  while IFS= read -r line; do
    echo "$line" >>"$log"
    name=${line#== }
    if [ "$name" != "$line" ] && [ "$name" != summary ]; then
      number=$((number + 1))
      echo "arc: $number of $count crates, $name, $(minutes_since "$start")" >&2
    fi
  done < <(cd "$here" && rt all check 2>&1 </dev/null)
  if ! grep -q "^$count of $count crates ok" "$log"; then
    cat "$log" >&2
    echo "arc: not every crate was proved, $(minutes_since "$start")" >&2
    rm -f "$log"
    return 1
  fi
  (cd "$here/crates/$crate" && rt run </dev/null >"$log" 2>&1)
  # The status is that of the program, which has no words here; this line says that it was built.
  if ! grep -q '^rt: running ' "$log"; then
    cat "$log" >&2
    echo "arc: $crate wasn't built, $(minutes_since "$start")" >&2
    rm -f "$log"
    return 1
  fi
  rm -f "$log"
  touch "$(program_of "$crate")"
  echo "arc: built in $((SECONDS - start)) seconds" >&2
}

# Runs a program that isn't built, without any proof: its crate, the flags of `rt try`, `--`, and the program's words.
try_unproved() {
  local crate=$1 said status
  shift
  said=$(mktemp) || return 1
  (cd "$here/crates/$crate" && exec rt try "$@" 2>"$said")
  status=$?
  if ! grep -q '^run=ended ' "$said"; then
    cat "$said" >&2
    echo "arc: this run came to no end" >&2
    status=1
  else
    # What the program itself wrote there, without what the toolchain says of the run.
    grep -v '^interpreter: \|^checked: \|^run=ended ' "$said" >&2
  fi
  rm -f "$said"
  return "$status"
}
