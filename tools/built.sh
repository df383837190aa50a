# shellcheck shell=bash disable=SC2154
# Whether the proved program is built and no file that its proofs read has changed since. Sourced with `top` set to
# the top of the repository.
#
# The stamp's time is that at which the build began, and its text lists all that was read. So a start looks at each of
# these files once, without a walk over the tree; a file that is new, gone or renamed shows in the time of its folder.
program=$top/crates/uhura/out/uhura
stamp=$top/crates/uhura/out/uhura.built

is_built() {
  [ -x "$program" ] && [ -s "$stamp" ] && ! is_older_than_sources
}

# (find gets the list as its words, on purpose: no name of the tree holds a space)
# shellcheck disable=SC2046
is_older_than_sources() {
  [ -n "$(cd "$top" && find $(<"$stamp") -maxdepth 0 -newer "$stamp" -print -quit 2>&1)" ]
}

# Notes that the program that stands there was proved of the files as they were at the time of the file $1.
note_built() {
  (cd "$top" && find crates.txt crates/*/src crates/*/specs crates/*/proofs) >"$stamp.next" 2>/dev/null
  touch -r "$1" "$stamp.next" && mv "$stamp.next" "$stamp"
}
