#!/bin/sh
# Lists the lines of src/ in which an older form may stand, by the eight points of docs/DESIGN-PASS.md.
# tools/forms.sh COMMIT prints the counts, tools/forms.sh COMMIT -l the lines too.
commit=${1:-HEAD}
lines=$2
cd "$(dirname "$0")/.." || exit 1

look() {
    found=$(git grep -nE "$2" "$commit" -- 'crates/*/src/*.rt' | sed "s/^$commit://")
    count=$(printf '%s' "$found" | grep -c .)
    echo "$1: $count"
    if [ "$lines" = -l ]; then printf '%s\n' "$found"; fi
}

look '1 own enums' '^ *(pub |pub\(crate\) )?enum '
look '1 results handed on by hand' '(Err\([a-z_]+\) =>|Ok\([a-z]+\) => Ok\(|let Ok\(.*\) = .* else|if let Err\()'
look '1 options taken apart by hand' '(^ *None => |Some\([a-z]+\) => Some\(|let Some\(.*\) = .* else|Place::Spoilt => )'
look '1 numbers for kinds and refusals' '(fn [a-z_]*number[a-z_]*\(|(kind|refusal): u8|-> u8 \{$|fn joins_are_accepted)'
echo "2 function names that stand more than once: $(git grep -hoE 'fn [a-z_]+' "$commit" -- 'crates/*/src/*.rt' | sort | uniq -d | wc -l)"
if [ "$lines" = -l ]; then git grep -hoE 'fn [a-z_]+' "$commit" -- 'crates/*/src/*.rt' | sort | uniq -cd; fi
echo "2 field names that stand in more than two structs: $(git grep -hE '^    (pub |pub\(crate\) )?[a-z_]+: [A-Za-z0-9<>&]+,$' "$commit" -- 'crates/*/src/*.rt' | sed 's/.* \([a-z_]*\): .*/\1/' | sort | uniq -c | awk '$1 > 2' | wc -l)"
look '3 while, and for over a range' '(^ *while |^ *(.[a-z]+: )?for [a-z_]+ in [^{]*\.\.)'
look '3 counters moved by hand' '((saturating|wrapping)_add\(1\);|\+= 1;)'
look '4 orders written by hand' 'fn (precedes|rank|top_number)\('
look '4 conversions written by hand' 'fn (number|with_number|words|told_row|outcome|row_of|point|of|low_ends|high_ends|hundredths|kind_number|kind_words|query_box|digit_count|put_digits|put_hundredths|put_text|text_length|digits_spell|typed_limit|new)\('
look '4 printing' '(println!|format!)'
look '5 clauses that ask' '^ *requires '
look '5 parameters that travel' '(heap: Global|chance: &mut Chance|measure: &M|out: &mut \[u8\]|records: &\[u8\], count|nearest: &mut \[Row\]|places: &mut \[T\]|places: &\[T\])'
look '6 arrays, and lengths beside them' '(\[[A-Za-z0-9_]+; [A-Z0-9]+\]|used: usize|count: usize)'
look '7 switches' 'match (self|way|choice|call|turn\.call|chance\.below\(.*\)) \{'
echo "8 answers: $(git grep -hcE '^pub [^ ]+ : goal\.' "$commit" -- 'crates/*/proofs/*Answers.antt' | awk '{ n += $1 } END { print n }') in $(git ls-tree -r --name-only "$commit" -- crates | grep -c 'Answers.antt$') files; lines of proofs: $(git ls-tree -r --name-only "$commit" -- crates | grep '/proofs/' | while read -r file; do git show "$commit:$file"; done | wc -l)"
