# What the scripts share. Whoever reads this has set `self`, the script's name for its messages.

# Numbers are written with a point, and bytes stay bytes, whatever the language of the system.
LC_ALL=C
export LC_ALL

fail() {
  printf '%s: %s\n' "$self" "$*" >&2
  exit 1
}

# Ends where the words are wrong, with what to write.
refuse() {
  printf '%s: %s\n' "$self" "$*" >&2
  exit 2
}

# Makes `room`, a folder for temporary files, which goes when the script ends, however it ends.
make_room() {
  room="$(mktemp -d 2>/dev/null)" || fail "no temporary folder can be made"
  room="$(cd "$room" && pwd)" || fail "no temporary folder can be made"
  trap 'rm -rf "$room"' EXIT
  trap 'exit 129' HUP
  trap 'exit 130' INT
  trap 'exit 143' TERM
}
