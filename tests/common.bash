# What several scripts of tests/ use. Most of them end with `exit "$failed"`.
script=${0##*/}
failed=0

# Prints what is wrong, and lets the script fail.
wrong() {
  echo "$script: $*"
  failed=1
}

# Says that $1 is not tried, because of $2, in the form that the gate counts. If a package is missing, $2 names it, or a
# program of it, and says `not installed`.
skip() {
  echo "$script: SKIPPED: $1: $2"
}

# Sets `program` to the executable $1, or to the one that `rt ci` leaves, and ends the script if there is none.
find_program() {
  program=$(realpath -m "${1:-crates/aclck/out/aclck}")
  [ -x "$program" ] || { echo "$script: $program is not built"; exit 1; }
}

# Makes the directory `work`, which is removed when the script ends.
make_work() {
  work=$(mktemp -d)
  trap 'rm -rf "$work"' EXIT
}

# Reads the file $1 as a terminal session, runs its commands in the current directory, and prints the session that they
# make. A command follows `$ `, and continues on the next line if its line ends in a backslash. It starts with the exit
# status of the command before it.
replay() {
  bash <(awk -v quote="'" '
    function quoted(text) { gsub(quote, quote "\\" quote quote, text); return quote text quote }
    goes_on { shown = shown "\n" $0; command = command "\n" $0 }
    !goes_on && /^\$ / { shown = $0; command = substr($0, 3); begun = 1 }
    begun && !/\\$/ {
      print "status=$?; printf \"%s\\n\" " quoted(shown) "; (exit \"$status\")"
      print command
    }
    { goes_on = begun && /\\$/; begun = goes_on }
  ' "$1") < /dev/null 2>&1
}

# Prints numbers as words of four bytes, most significant byte first, in the escapes that printf reads.
spelled() {
  local number
  for number; do
    printf '\\x%02x\\x%02x\\x%02x\\x%02x' $((number >> 24)) $((number >> 16 & 255)) $((number >> 8 & 255)) \
      $((number & 255))
  done
}
