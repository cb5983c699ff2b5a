# What the tests in shell share: a folder for their files, and what a run should have given.
files=$(mktemp -d) || exit 1
trap 'rm -rf "$files"' EXIT
wrong=0
tried=0

# run COMMAND..: runs it, and keeps what it gives.
run() {
  "$@" >"$files/out" 2>"$files/err"
  status=$?
}

# expect WHAT STATUS OUTPUT ERROR: what the last run should have given; each line is ended by a line feed.
expect() {
  tried=$((tried + 1))
  if [ "$status" != "$2" ] || ! lines "$3" | cmp -s - "$files/out" || ! lines "$4" | cmp -s - "$files/err"; then
    wrong=$((wrong + 1))
    printf '%s: %s: status %s, and on standard output and standard error:\n' "$0" "$1" "$status"
    head -n 20 "$files/out" "$files/err"
  fi
}
lines() { [ -z "$1" ] || printf '%s\n' "$1"; }

# letters N LETTER: the letter so many times.
letters() { printf "%${1}s" '' | tr ' ' "$2"; }

# here COMMAND: is it on this machine? It is said what isn't, since less is tried then.
here() { command -v "$1" >/dev/null 2>&1 || { printf '%s: no %s here: its part is left out\n' "$0" "$1"; false; }; }

# summary: says how many were tried; its status tells whether none was wrong.
summary() {
  printf '%s: %s tried, %s wrong\n' "$0" "$tried" "$wrong"
  [ "$wrong" = 0 ]
}
