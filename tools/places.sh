#!/bin/bash
# Lists the places that docs/DESIGN-PASS.md counts, a heading for each kind: tools/places.sh [ROOT]
cd "${1:-$(dirname "$0")/..}" || exit 1
mapfile -t files < <(find crates/*/src -name '*.rt' | sort)
place() { # place 'heading' 'pattern of grep -E'
  local found
  found=$(grep -nE -- "$2" "${files[@]}")
  echo "## $1: $(printf '%s' "$found" | grep -c .)"
  [ -z "$found" ] || printf '%s\n' "$found"
}
place "1a own enums of the shape of Result"    'enum Answer'
place "1b refusals as bare numbers"            ', u8>|Err\([0-9]+\)|Err\(number\)|pub (number|layer): u8|fn (words|declined)\(.*number: u8'
place "1c words chosen by a number"            '^ +[0-9_]+ => "'
place "1d types of messages as numbers"        'u16 = 1[0-9]{2};|put_u16\(out, 0, 1[0-9]{2}\)'
place "1e a flag beside a value"               '&mut \[u8\]\) -> bool'
place "2a the width or length in a name"       'fn (to_bytes|read_u|put_u|same)[0-9]+|fn value_at'
place "2b one asset or four"                   'fn single_|^pub fn (within|sum|difference|read)\(|^pub struct (Satoshi|Basket)|^impl Money for'
place "2c own or mixed, four sigmas"           'fn (own|mixed)_round|fn eight_|fn (big|small)_sigma[01]'
place "2d equality of bytes"                   'fn (equal|is_text)\('
place "2e the same question twice"             'fn answer_carry_(key|value)|Answer::(Taken|Declined)\(text\) => format'
place "3 loops that count an index by hand"      'for (i|lower|bits) in 0|while at <|if index >= count|return i;|number = number'
place "4a equality by hand"                    'fn (equal|is_text|same32)\('
place "4b conversion by hand"                  'pub fn refusal\(|as char\)'
place "4c printing by hand"                    'fn (words|refusal_text|declined|show)\(|\.push\(digit_of'
place "4d a match that a method replaces"      '^ +Some\(\(?[a-z]+(, rest\))?\)? => (Ok|Some)?\(?[a-z]+\)?,$|^ +None => (None|held|Err\(.*\)|unreachable\(\)|true),$'
place "4e plain types without Debug or =="     'derive\((Clone, Copy|Drop)\)'
place "5a both logs within 4,096"              '≤ 4096\) × '
place "5b the limit in clauses"                'k ≤ 2100000000000000|(limited|sum_of) [N14] 2100000000000000'
place "5c what makes a commitment, in a list"  '^    holder: Side,'
place "5d a slice and a place in it"           '\[u8\], at: usize'
place "5e how many bits, in contracts of the store" 'requires . bits < 49'
place "5f two logs, handed on together"         'other: &\[Update<M>\]'
place "6a a length beside a buffer"            'pub at: usize|total: u64,|\[0u8; 1024\]'
place "6b text as rows of bytes"               '(word|line|text|digits|rest): &'"('a )?"'\[u8\]'
place "7a types that stand for functions"      'impl Test for|trait Test|^pub struct (Blank|Letter|InLine|Printable)|front::<'
place "7b a chain of tests on a word"          'is_text\([a-z]+, b"'
place "7c the same match in each method"       'NamedLock::(Hash|Group)\(lock\) =>'
echo "## 8 lines of proofs: $(find crates/*/proofs -name '*.antt' -exec cat {} + | wc -l)"
echo "## 8 answers written: $(find crates/*/proofs -name Answers.antt -exec cat {} + | grep -cE '^pub [^ ]+ : goal')"
