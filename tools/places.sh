#!/bin/sh
# Counts the places at which older forms may stand, in the src/ of every listed crate, and lists them with -l. A place is where to look, not a fault.
#   tools/places.sh [-l] [FOLDER]
list=0
[ "$1" = "-l" ] && list=1 && shift
cd "${1:-.}" || exit 2
files=$(sed -n 's/^\([a-z_][a-z_]*\).*:.*/crates\/\1\/src/p' crates.txt | while read -r d; do find "$d" -name '*.rt'; done | sort)

say() { # what, pattern, pattern of lines to leave out
    found=$(grep -nE -- "$2" $files /dev/null | grep -vE -- "$3")
    echo "$1: $(printf '%s' "$found" | grep -c '')"
    [ $list = 1 ] && [ -n "$found" ] && printf '%s\n' "$found" | sed 's/^/    /'
}
no='^[^:]*:[0-9]*: *//'

say "1a enums of our own" '^ *(pub(\(crate\))? )?enum ' "$no"
say "1b flags: fields of type bool" '^ *(pub )?[a-z_]+: bool,' "$no"
say "1c an answer of type bool" '\) -> bool' "$no"
say "1d a Result whose error is a number" 'Result<.*, *(u8|u16|u32|u64|usize)>' "$no|/tests"
say "1e a number that stands for none" '\(0: none\)|or none\.' '^$'
say "3d a range told by two comparisons" '([a-z_.]+) < [a-z0-9]+ \|\| \1 > ' "$no"
say "3a a for over numbers" 'for [a-z_() ,]+ in [^{[]*\.\.' "$no"
say "3b a while" '^ *while ' "$no"
say "3c a loop with a number beside its item" 'enumerate\(\)' "$no"
say "4a equality of the number inside" '\.0 (==|!=|<|>|<=|>=) ' "$no"
say "4b an impl of From, TryFrom, Display, PartialEq or Ord by hand" '^impl.* (From|TryFrom|Display|PartialEq|PartialOrd|Ord|Debug)\b.* for ' "$no"
say "4c digits by hand" '% 10|\* 10\b' "$no"
say "5a requires" '^ *requires ' "$no"
# a list may stand on several lines, so it is counted apart
lists=$(awk '/^ *\/\//{next} /(^|[ (])fn [a-z_]+/{text=""; at=FILENAME ":" FNR; on=1} on{text=text $0; if ($0 ~ /\)/ && text ~ /fn [a-z_]+[^)]*\)/) {t=text; sub(/.*fn /, "", t); name=t; sub(/[<(].*/, "", name); sub(/^[^(]*\(/, "", t); sub(/\)( ->.*| \{.*| *$).*/, "", t); n=gsub(/[a-z_]+: /, "", t); if (n>=4) print at ": " name; on=0}}' $files)
echo "5b a list of four parameters or more: $(printf '%s' "$lists" | grep -c '')"
[ $list = 1 ] && [ -n "$lists" ] && printf '%s\n' "$lists" | sed 's/^/    /'
say "6a a length, a place or a number as a field beside others" '^ *(pub )?(at|length|count|used|sets|len|n): (usize|u32|u64),' "$no"
say "6b arrays" '\[[A-Za-z0-9_:<>, ()]+; *[A-Za-z0-9_]+\]' "$no|/tests"
say "6c an index" '[a-z_)]\[[a-z_]+( [-+] [a-z0-9_]+)?\]' "$no|^[^:]*:[0-9]*: *#"
say "7 fn pointers, closures, dyn" 'fn\(|Fn(Mut|Once)?\(|dyn |[(, ]\|[a-z_&*, ]+\| ' "$no"
echo "8 lines of proofs: $(sed -n 's/^\([a-z_][a-z_]*\).*:.*/crates\/\1\/proofs/p' crates.txt | while read -r d; do [ -d "$d" ] && find "$d" -name '*.antt'; done | xargs cat | wc -l), files of answers: $(sed -n 's/^\([a-z_][a-z_]*\).*:.*/crates\/\1\/proofs/p' crates.txt | while read -r d; do [ -d "$d" ] && find "$d" -name Answers.antt; done | wc -l)"
