# Which program there is to run: for the launcher and the install, which source this file with `top` set to the
# folder of the repository.

crate=$top/crates/treesync
# What `rt ci` leaves, and `rt run` too. The toolchain leaves no unproved program there.
proved=$crate/out/treesync
# What `make_quick` leaves.
quick=$top/out/quick/treesync

# Whether the program $1 is there and none of the files in $2 and the words that follow it is newer.
is_fresh() {
  local program=$1
  shift
  [ -x "$program" ] && [ -z "$(find "$@" -type f -newer "$program" -print -quit 2>/dev/null)" ]
}

# Whether there is a proved program of the sources as they are.
has_proved() {
  is_fresh "$proved" "$top/crates.txt" "$top"/crates/*/src "$top"/crates/*/specs "$top"/crates/*/proofs
}

# Whether there is a quick build of the sources as they are.
has_quick() {
  is_fresh "$quick" "$top/crates.txt" "$top"/crates/*/src
}

# Makes the toolchain's quick build, which proves nothing, and keeps it; on a failure it says why.
#
# `rt try` builds a program, runs it in a folder of its own, and removes that. So the program gets a pipe for its
# log: while it waits for the log's text, it is copied.
make_quick() {
  local work copier status
  work=$(mktemp -d) && mkfifo -- "$work/log" && touch -- "$work/begun" && mkdir -p -- "${quick%/*}" || return
  (
    exec 3>"$work/log"
    cp -- "$(find "$work" -type f -perm -u+x -print -quit)" "$work/kept"
    printf 'treelog 1\nend 0\n' >&3
  ) 2>/dev/null &
  copier=$!
  trap 'kill "$copier" 2>/dev/null; rm -rf -- "$work"; exit 130' INT TERM HUP
  (cd -- "$crate" && TMPDIR=$work rt try -- canon "$work/log") </dev/null >"$work/printed" 2>"$work/said"
  status=$?
  # It waits for ever where no program was built.
  kill "$copier" 2>/dev/null
  wait "$copier" 2>/dev/null
  if [ "$status" -eq 0 ] && [ "$(cat -- "$work/printed")" = $'treelog 1\nend 0' ] && [ -x "$work/kept" ]; then
    # A source that changed in the meantime is newer.
    touch -r "$work/begun" -- "$work/kept" && mv -- "$work/kept" "$quick"
    status=$?
  else
    cat -- "$work/said" >&2
    status=1
  fi
  rm -rf -- "$work"
  trap - INT TERM HUP
  return "$status"
}
