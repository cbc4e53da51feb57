#!/usr/bin/env bash
# Counts the places that docs/DESIGN-PASS.md speaks of, by patterns over crates/*/src; with -l it lists them.
#     tools/places.sh [-l] [FOLDER]      FOLDER: a checkout; this one where none is given
list=no
if [ "$1" = -l ]; then list=yes; shift; fi
cd "${1:-$(dirname "$0")/..}" || exit 1
sources() { find crates/*/src -name '*.rt' | sort; }

# name, then a pattern over one line
lines() {
    hits=$(sources | xargs grep -nE -- "$2" | grep -vE '^[^:]*:[0-9]+: *(//|ghost use|requires|ensures)')
    tell "$1" "$hits"
}

# name, then a pattern over whole files
spans() {
    hits=$(sources | while read -r file; do
        perl -0777 -ne 'while (/'"$2"'/g) { $n = 1 + (substr($_, 0, $-[0]) =~ tr/\n//); print "'"$file"':$n: ", (split /\n/, $&)[0], "\n" }' "$file"
    done)
    tell "$1" "$hits"
}

tell() {
    printf '%4d  %s\n' "$(printf '%s' "$2" | grep -c .)" "$1"
    [ $list = no ] || printf '%s\n' "$2" | sed '/^$/d; s/^/          /'
}

lines "1 a flag among other fields" '^\s*(pub(\(\w+\))? )?\w+: bool,'
lines "1 a number for a kind" '\b(mode|direction|kind|code): u8'
lines "1 a result in a result" 'Result<Result<'
spans "1 a refusal or None handed on by let and else" 'let [^;{]*else \{\s*return (?:None|Err\(|Ok\(Err)'
lines "1 an arm that wraps again or hands on" '^\s*((Some|Ok)\(\w+\)( if [^=]*)? => (Some|Ok)\(|None => (return )?(None|Err)|Err\(\w*\) => (return )?(Err|None|Ok\(Err)|Ok\(\(\)\) => \{\})'
lines "1 an empty value for none" '(is_empty\(\)|key_length|title|season).*(//.*(until|where this is empty)|return)'
lines "3 a loop that counts" '^\s*(for \w+ in [^{]*\.\.|while )'
lines "3 a count that is raised by hand" '^\s*\w+( \+= 1;| = \w+\.saturating_add\(1\);)'
lines "4 a narrowing cast" ' as (u8|u16|u32)\b'
lines "4 a widening cast" ' as (u64|usize)\b'
lines "4 an impl of Display or From by hand" '^impl.* (fmt::Display|From<.*>) for '
lines "4 a reading of names" 'fn (named|\w+_named|words|title)\b'
lines "6 an array that a struct or a function fills in part" '^\s*(pub(\(\w+\))? )?\w+: \[\w+; \w+\],|let mut \w+ = \[[^;]*; (64|32|MOST_CELLS)\]'
lines "6 a length beside a buffer" '^\s*(pub(\(\w+\))? )?(len|count|size|width|key_length): (\[u16; \d+\]|u16|usize),'
lines "7 a match that chooses a step" 'match \(?(self\.mode|step|self|second|cipher|action|does|way|word|direction|call)\b.*\{'
facts=$(sources | xargs grep -hoE '(requires|ensures)[^{]*\{ .* \}$' | grep -oE '\{ .* \}$' | sort | uniq -c | awk '$1 >= 3')
printf '%4d  %s\n' "$(printf '%s' "$facts" | grep -c .)" "5 a clause that stands three times or more"
[ $list = no ] || printf '%s\n' "$facts" | sed 's/^/          /'
printf '%4d  %s\n' "$(cat $(find crates/*/proofs -name '*.antt') | wc -l)" "8 lines of proofs"
printf '%4d  %s\n' "$(find crates/*/proofs -name Answers.antt | wc -l)" "8 files of answers"
