# What the commands list, install and bench share. Each sets `name`, its own name, `usage`, how it is called, and `top`, the folder
# that it stands in, before it reads this file.
version=$(cat "$top/VERSION") || exit 1

# fail MESSAGE: says it in the command's name, and ends the command.
fail() {
  printf '%s: %s\n' "$name" "$1" >&2
  exit 1
}

# wrong_usage MESSAGE: the same for a call that the command can't make sense of.
wrong_usage() {
  printf '%s: %s\nusage: %s\n' "$name" "$1" "$usage" >&2
  exit 2
}

# option WORD HELP: answers a call that only asks about the command, and refuses an option that it doesn't have. HELP is what
# stands below the usage.
option() {
  case $1 in
  -h | --help) say "usage: $usage
$2" ;;
  --version) say "$name (Porthwynna) $version" ;;
  *) wrong_usage "$1: there is no such option" ;;
  esac
  exit 0
}

# say TEXT: prints it and a line feed on standard output, or says that it could not.
say() {
  (: 3>&1) 2>/dev/null || fail 'standard output is closed'
  printf '%s\n' "$1" 2>/dev/null || fail 'standard output could not be written'
}

# build CRATE FILE WHAT COMMAND..: makes crates/CRATE/out/FILE by the command of the toolchain, called in the crate's folder without
# input, if it is not there yet or its source has changed. It counts as made when the command began, so that what changes meanwhile is
# seen the next time. Leaves the file's path in `file`.
build() {
  crate=$top/crates/$1
  file=$crate/out/$2
  what=$3
  shift 3
  if [ -f "$file" ] && [ -z "$(newer_source "$file")" ]; then
    return
  fi
  command -v rt >/dev/null 2>&1 || fail "the command rt is not on the path (README.md, 'What you need')"
  echo "$name: proving and building $what; the first time takes a few minutes" >&2
  mkdir -p "$top/target" || fail "the folder $top/target could not be made"
  log=$top/target/$name.log
  began=$top/target/$name.began
  : >"$began" || fail "$began could not be written"
  (cd "$crate" && "$@") >"$log" 2>&1 </dev/null || fail "$what was not built: see $log"
  touch -r "$began" "$file"
}

# newer_source FILE: prints a path of the crates' source that is newer than the file, if there is one. What is made in crates/NAME/out is
# no source; and whenever that folder comes and goes, crates/NAME is newer, which says nothing of the source.
newer_source() {
  (cd "$top" && find crates crates.txt -regex 'crates/[^/]*/out' -prune -o -newer "$1" ! -regex 'crates/[^/]*' -print -quit)
}
