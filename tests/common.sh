# shellcheck shell=bash
# What the two runners of tests share: a count, and the difference between what is owed and what came. Sourced.
passed=0 failed=0

# Says what differs between the owed file $1 and the file $2, in 20 lines at most, and answers whether nothing does.
is_same() {
  cmp -s "$1" "$2" && return
  if command -v diff >/dev/null; then
    diff -u --label owed --label came "$1" "$2" | head -n 20 | cut -c1-200
  else
    echo "(no diff on this machine: the difference between $1 and what came isn't shown)"
  fi
  return 1
}

# Counts the test $1, which passed where $2 is 0.
count() {
  if [ "$2" = 0 ]; then
    passed=$((passed + 1))
  else
    failed=$((failed + 1))
    echo "tests: $1 FAILED"
  fi
}

tell_counts() {
  echo "$passed passed, $failed failed"
  [ "$failed" = 0 ]
}
