# What the scripts teg and show share: proves and builds a program of the repository, where it does not stand there as built
# of its sources. The script that reads this file has set
#
#   top      the top of the repository,
#   goal     the crate of the program,
#   called   the name by which the script tells what it does, and
#   price    what it says before it proves.

program=$top/crates/$goal/out/$goal
built=$program.sources
rt=$(type -P rt)

# The crates of the program by crates.txt, each after those that it stands on, and their lines.
declare -A deps=()
crates=()
while IFS=: read -r name rest; do
  case $name in '' | '#'*) ;; *) deps[$name]=$rest ;; esac
done <"$top/crates.txt"
add_crate() {
  local dep
  for dep in ${deps[$1]}; do
    if [ -n "${deps[$dep]+listed}" ] && [[ " ${crates[*]} " != *" $dep "* ]]; then add_crate "$dep"; fi
  done
  crates+=("$1")
}
add_crate "$goal"
own_lines() {
  local crate
  for crate in "${crates[@]}"; do echo "$crate:${deps[$crate]}"; done
}

# What the program is built from: the kit, and in these folders what rt does not make.
folders=("${crates[@]/#/crates/}")
sources=(-name out -prune -o -name must-fail -prune -o)

# Whether the program stands there, and nothing that it is built from was touched since the time of that file. A file's
# own time can be set back, so this looks at the time of its last change of any kind. (The folder of a crate itself
# changes where rt makes out/ in it.)
is_untouched_since() {
  local touched=(-cnewer "$1" "(" -type f -o -path "$top/crates/*/*" ")")
  [ -x "$program" ] && [ -f "$1" ] &&
    [ -z "$(find -H "$top/crates.txt" "${folders[@]/#/$top/}" ${rt:+"$rt"} "${sources[@]}" "${touched[@]}" -print -quit 2>&1)" ]
}

# Whether the checksum beside the program is that of this very file, and not copied with it, and still that of its sources.
is_as_told() {
  [ -f "$built" ] && [ "$(sed -n 2p "$built")" = "$(identity)" ] && is_untouched_since "$built"
}
identity() { stat -c '%d %i %z' "$program" 2>/dev/null; }

# The checksum of all that the program is built from.
checksum() {
  (
    cd "$top" || exit
    rt version
    own_lines
    find "${folders[@]}" "${sources[@]}" -type f \( -name '*.rt' -o -name '*.antt' \) -print0 | LC_ALL=C sort -z | xargs -0 sha256sum
  ) | sha256sum
}

# Whether rt itself built the program that stands there of these sources: `rt ci` from the lock on by which it began, or
# `rt run`, which then tells at once that nothing has changed. (Where it begins to prove instead, it is cut off.)
is_built_by_rt() {
  local gate=$top/.git/rt-ci.lock
  if [ "$program" -nt "$gate" ] && is_untouched_since "$gate"; then return 0; fi
  [ -x "$program" ] && [ -f "$program.stamp" ] &&
    (cd "$top/crates/$goal" && timeout 30 rt run) 2>&1 </dev/null 9>&- | grep -q 'nothing has changed since the last proved build'
}

# Whether the program that stands there was built of the sources with this checksum.
is_built_of() {
  { [ -x "$program" ] && [ "$(sed -n 1p "$built" 2>/dev/null)" = "$1" ]; } || is_built_by_rt
}

# Whether the program stands there as built of these sources; looks, and builds nothing.
stands() {
  is_as_told || { [ -n "$rt" ] && [ -x "$program" ] && is_built_of "$(checksum)"; }
}

# Copies what the program is proved from into an empty folder, as a repository of its own: no edits that must fail.
copy_sources() {
  local crate part
  mkdir "$1/.git" "$1/crates"
  cp "$top/HANDLES" "$1"
  own_lines >"$1/crates.txt"
  for crate in "${crates[@]}"; do
    mkdir "$1/crates/$crate"
    for part in "$top/crates/$crate"/*; do
      case ${part##*/} in out | must-fail) ;; *) cp -R "$part" "$1/crates/$crate" ;; esac
    done
  done
}

# Says each crate that is proved, how many are, and when the program alone is left.
tell_progress() {
  local line name count=0
  while IFS= read -r line; do
    case $line in
    'rt: '*': its tests '*) ;;
    'rt: '*' NOT PROVED'*) echo "$called: ${line#rt: }" ;;
    'rt: '*' proved' | 'rt: '*' is kept: '*)
      name=${line#rt: }
      count=$((count + 1))
      echo "$called: ${name%% *} is proved, $count of ${#crates[@]} crates"
      if [ $((count + 1)) = ${#crates[@]} ]; then echo "$called: proving the program's own crate, and compiling it"; fi
      ;;
    esac
  done
}

# Proves the crates of the program side by side and builds it, as `rt ci` does, and puts it into its place.
prove_and_build() (
  room=$(mktemp -d) || exit
  trap 'rm -rf "$room"' EXIT
  copy_sources "$room"
  (cd "$room" && rt ci) 2>&1 </dev/null 9>&- | tee "$program.log" | tell_progress >&2
  grep -qE "^rt: $goal (proved|is kept: .*)\$" "$program.log" &&
    cp "$room/crates/$goal/out/$goal" "$program.new" && mv "$program.new" "$program"
)

# Builds the program, where that of the same sources does not stand there. One call at a time does so.
build() {
  local lock=$program.lock now
  mkdir -p "$top/crates/$goal/out"
  exec 9>>"$lock"
  if ! flock -n 9; then
    echo "$called: another call builds the program; waiting for it" >&2
    flock 9
    if is_as_told; then return; fi
  fi
  # (what is touched from here on is newer than what is built)
  touch "$lock"
  now=$(checksum)
  if ! is_built_of "$now"; then
    echo "$called: $price" >&2
    if ! prove_and_build; then
      echo "$called: the build failed; its report is $program.log" >&2
      exit 1
    fi
  fi
  printf '%s\n' "$now" "$(identity)" >"$built"
  touch -r "$lock" "$built"
}

# Builds the program where it is missing or its sources have changed, and ends the script where it cannot.
make_ready() {
  if is_as_told; then return; fi
  if [ -z "$rt" ]; then
    echo "$called: the program is to be built, and the command rt of the Rattle kit is not on the PATH" >&2
    exit 127
  fi
  build
}
