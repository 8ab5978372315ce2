# Which program is of the sources as they are: what bin/catchup, bin/release, bin/check-release and bin/package share.
# Whoever reads this has set `self`, the script's name for its messages, and `top`, the root of the checkout.

built=crates/catchup/out/catchup
built_line=crates/catchup/out/BUILT
released=release/x86_64-linux/catchup
released_line=release/x86_64-linux/RELEASE

fail() {
  printf '%s: %s\n' "$self" "$*" >&2
  exit 1
}

# Ends where the words are wrong, with what to write.
refuse() {
  printf '%s: %s\n' "$self" "$*" >&2
  exit 2
}

# The lines of crates.txt that the program stands on: its own crate's and, one by one, those of the crates below.
closure() {
  local - line name at below order=() wanted=(catchup)
  local -A line_of wanted_once
  set -f
  while IFS= read -r line || [ -n "$line" ]; do
    line="${line%%#*}" name="${line%%[[:blank:]:]*}"
    [[ -n $name && $line == *:* ]] || continue
    line_of[$name]="$line" order+=("$name")
  done <"$top/crates.txt"
  for ((at = 0; at < ${#wanted[@]}; at++)); do
    name="${wanted[at]}"
    [[ -n ${line_of[$name]-} && -z ${wanted_once[$name]-} ]] || continue
    wanted_once[$name]=1 wanted+=(${line_of[$name]#*:})
  done
  for name in "${order[@]}"; do
    below=(${line_of[$name]})
    [ -z "${wanted_once[$name]-}" ] || echo "${below[*]}"
  done
}

# The version of the product: that of the newest heading of the change log.
version() {
  local line
  while IFS= read -r line; do
    case "$line" in '## ['*']'*) line="${line#*[}" && echo "catchup ${line%%]*}" && return ;; esac
  done 2>/dev/null <"$top/CHANGELOG.md"
  fail "$top/CHANGELOG.md names no version"
}

# Finds the program's `crates`, and the `folders` that their sources are in. Fails where one of them has none.
find_sources() {
  local line crate part
  lines="$(closure)" && [ -n "$lines" ] || return 1
  crates=() folders=()
  while read -r line; do
    crate="${line%%[ :]*}"
    [ -d "$top/crates/$crate/src" ] || return 1
    crates+=("$crate")
    for part in src specs proofs; do
      [ ! -d "$top/crates/$crate/$part" ] || folders+=("crates/$crate/$part")
    done
  done <<<"$lines"
}

# The digests of the files in every fourth folder of the sources: four processes go through them at once. What can't be read
# leaves a line of its own, since nobody sees the status.
digests() {
  local at some=()
  for ((at = $1; at < ${#folders[@]}; at += 4)); do some+=("${folders[at]}"); done
  [ ${#some[@]} -eq 0 ] || find "${some[@]}" -type f -exec b2sum -l 256 {} + 2>/dev/null || echo '?'
}

# Finds `now`, the checksum of what the program is made of: src, specs and proofs of the crates that crates/catchup stands
# on, their lines in crates.txt, and HANDLES. Tests in other crates aren't in it. It is BLAKE2b of a sorted list of such sums.
# Fails where one of them can't be read.
sum_sources() {
  local list
  list="$(cd "$top" && LC_ALL=C sort <(digests 0) <(digests 1) <(digests 2) <(digests 3) \
    <(b2sum -l 256 HANDLES 2>/dev/null || echo '?') - <<<"$lines")" || return 1
  [[ $'\n'$list$'\n' != *$'\n?\n'* ]] || return 1
  now="$(printf '%s\n' "$list" | b2sum -l 256)" && now="${now%% *}"
}

# Finds `sum`, the checksum of a file.
digest() {
  sum="$(b2sum -l 256 <"$1")" && sum="${sum%% *}"
}

# is_of SOURCES PROGRAM LINE: whether the line names these sources, and the program's own bytes.
is_of() {
  local sources program
  [ -x "$top/$2" ] && [ -f "$top/$3" ] && read -r _ sources _ program _ <"$top/$3" &&
    [ "$sources" = "$1" ] && digest "$top/$2" && [ "$program" = "$sum" ]
}

# put_line SOURCES PROGRAM LINE LOGIC: writes the line that is_of reads.
put_line() {
  digest "$top/$2" && printf 'sources %s program %s logic %s\n' "$1" "$sum" "$4" >"$top/$3.$$" &&
    mv "$top/$3.$$" "$top/$3"
}

# The toolchain's logic, which says what a proof rests on. Kits with one logic may differ elsewhere.
logic() {
  rt version 2>/dev/null | sed -n 's/.*logic \([0-9a-f]*\).*/\1/p'
}

# strip_program FROM TO: takes the names out of a program, by the toolchain's own tool: its clang is that under this name.
strip_program() {
  local page
  page="$(rt doc)" && (exec -a llvm-strip "${page%/*}/toolchain/bin/clang" -o "$2" "$1")
}
