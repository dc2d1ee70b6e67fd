#!/usr/bin/env bash
# Runs the program on books that cannot be read in part or at all: what it prints, and its status.
# A run that the gate stores has to end with status 0, so these stand here.
set -u
root="$(cd "$(dirname "${BASH_SOURCE[0]}")/.." && pwd)"
program="$root/relay"
work="$(mktemp -d)"
trap 'rm -rf "$work"' EXIT
failed=0

# expect NAME STATUS: the book is in $work/book, what it should print in $work/expected
expect() {
  "$program" "$work/book" >"$work/printed" 2>"$work/errors"
  local status=$?
  if [ "$status" != "$2" ] || ! cmp -s "$work/printed" "$work/expected"; then
    echo "books: $1 failed with status $status"
    diff "$work/expected" "$work/printed" | head -n 5
    failed=1
  fi
}

book() { printf "$1" >"$work/book"; }
expected() { printf "$1" >"$work/expected"; }

abc="ba7816bf8f01cfea414140de5dae2223b00361a396177a9cb410ff61f20015ad"
declined="declined 4, layer 1, channel 0: the message cannot be read, or is not for this call"

book ''
expected 'book: 0 pages, 0 taken, 0 declined, 0 not made\n'
expect "an empty book" 0

book '# only a comment with no text: \377\376\n\n  \t \n'
expected 'book: 0 pages, 0 taken, 0 declined, 0 not made\n'
expect "comments and blanks" 0

book 'read 0 -\nread 0 00\n'
expected "1 read: $declined\n2 read: $declined\nbook: 2 pages, 0 taken, 2 declined, 0 not made\n"
expect "an empty message and one byte" 0

book 'sha 616\nsha 61626x\nsha 616263\n'
expected "line 1: not hex, two digits a byte\nline 2: not hex, two digits a byte\n1 sha: $abc\nbook: 1 pages, 1 taken, 0 declined, 0 not made\n"
expect "an odd digit, and a letter that is none" 1

book 'sha 616263\r\n\tsha\t \t616263 \nsha 616263'
expected "1 sha: $abc\n2 sha: $abc\n3 sha: $abc\nbook: 3 pages, 3 taken, 0 declined, 0 not made\n"
expect "carriage returns, tabs and a last line with no end" 0

book 'sha 61\37762\nsha 616263\n\001\n'
expected "line 1: a character that cannot be printed\n1 sha: $abc\nline 3: a character that cannot be printed\nbook: 1 pages, 1 taken, 0 declined, 0 not made\n"
expect "bytes that are no text" 1

book 'read 18446744073709551615 -\nread 18446744073709551616 -\nread -1 -\nread +1 -\nread 1x -\n'
expected "1 read: declined 4, layer 1, channel 18446744073709551615: the message cannot be read, or is not for this call\nline 2: not a number of 64 bits\nline 3: not a number of 64 bits\nline 4: not a number of 64 bits\nline 5: not a number of 64 bits\nbook: 1 pages, 0 taken, 1 declined, 0 not made\n"
expect "numbers past 64 bits or with a sign" 1

book 'sha\nsha 61 62\nwhat 61\nopens\nopens rope\nopens hash 00 00\ncarry hash both 00 00\ncarry group 23 11 key\n'
expected 'line 1: a word is missing\nline 2: a word too many\nline 3: an unknown command\nline 4: a word is missing\nline 5: neither the lock hash nor group\nline 6: not a value of 64 hex digits\nline 7: not a value of 64 hex digits\nline 8: not a number of 64 bits\nbook: 0 pages, 0 taken, 0 declined, 0 not made\n'
expect "words missing, too many and unknown" 1

value="$(printf '00%.0s' $(seq 32))"
book "carry hash both $value $value\n"
expected 'line 1: neither key nor value\nbook: 0 pages, 0 taken, 0 declined, 0 not made\n'
expect "neither key nor value" 1

{ printf 'sha '; head -c 1000000 /dev/zero | tr '\0' 'a'; printf '\nsha 616263\n'; } >"$work/book"
long="$(head -c 500000 /dev/zero | tr '\0' '\252' | sha256sum | cut -d' ' -f1)"
expected "1 sha: $long\n2 sha: $abc\nbook: 2 pages, 2 taken, 0 declined, 0 not made\n"
expect "a line of a million characters" 0

{ head -c 1000000 /dev/zero | tr '\0' 'x'; printf '\nsha 616263\n'; } >"$work/book"
expected "line 1: an unknown command\n1 sha: $abc\nbook: 1 pages, 1 taken, 0 declined, 0 not made\n"
expect "a word of a million characters" 1

rm -f "$work/book"
expected ''
expect "a file that is not there" 1
if [ "$(cat "$work/errors")" != "relay: cannot read $work/book: No such file or directory (os error 2)" ]; then
  echo "books: a file that is not there: $(cat "$work/errors")"
  failed=1
fi

# What an error says is cut at 120 bytes.
absent="$work/$(printf 'x%.0s' $(seq 150))"
whole="cannot read $absent: No such file or directory (os error 2)"
"$program" "$absent" >"$work/printed" 2>"$work/errors"
if [ "$?" != 1 ] || [ -s "$work/printed" ] || [ "$(cat "$work/errors")" != "relay: ${whole:0:117}..." ]; then
  echo "books: a file that is not there, by a long name: $(cat "$work/errors")"
  failed=1
fi

[ "$failed" = 0 ] && echo "books: all as expected"
exit "$failed"
