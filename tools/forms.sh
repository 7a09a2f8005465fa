#!/usr/bin/env bash
# Counts the places of each point of docs/DESIGN-PASS.md in src/, as they stand at a commit: tools/forms.sh [COMMIT [-v]]. With -v each place is shown.
set -euo pipefail
commit=${1:-HEAD}
show=${2:-}

count() { # POINT WORDS PATTERN [PATHS..]
    local point=$1 words=$2 pattern=$3
    shift 3
    local found
    found=$(git grep -nE "$pattern" "$commit" -- "${@:-crates/*/src/*.rt}" || true)
    printf '%-3s %5s  %s\n' "$point" "$(grep -c . <<<"$found" || true)" "$words"
    if [ -n "$show" ]; then sed "s/^$commit:/          /" <<<"$found"; fi
}

lib=()
for c in $(git ls-tree --name-only "$commit" crates/ | sed 's/.*\///' | grep -v vectors); do lib+=("crates/$c/src/*.rt"); done

count 1a 'enums of our own' '^(pub )?enum '
count 1b 'flags that say whether the value beside them holds' '^ +(pub )?sure: bool'
count 1c 'refusals told by a number' '(number: |Refused\(|Halt\(|halted\()[0-9]+' "${lib[@]}"
count 1d 'functions that answer a number or a place, and 0 for none' '^(pub )?fn (fault|judge|ahead_fault|ground|overdone|entry_bits|tone_at|end_behind|message_at|in_reach)\(.*-> (u32|OctetCount)$' "${lib[@]}"
count 1e 'kinds of instructions told by a number' '(kind: u(32|64)\b|let kind = )' "${lib[@]}"
count 3a 'loops by while' '^ +while '
count 3b 'of them in the library' '^ +while ' "${lib[@]}"
count 4a 'answers whose numbers are set out by hand' '^ +(refusal: (0|number|refusal\.why\.number\(\)),|Err\(refusal\) => [A-Z])' "${lib[@]}"
count 4b 'conversions by an impl' '^impl.* (From|TryFrom)<'
count 5a 'clauses that a place is within a message' '(requires|ensures).*Within '
count 5b 'clauses that bits are in hand' '(requires|ensures).*[{ ]InHand '
count 5c 'clauses that marks are the table of marks' '(requires|ensures).*Marks marks'
count 5d 'clauses that a walk is ready' '(requires|ensures).*Ready '
count 6a 'buffers with a length beside them' '(used: (usize|OctetCount)|len: usize|length: usize),?$'
count 7a 'switches on a kind or an edit' '(Kind|Edit|Field|Supplier)::[A-Z][A-Za-z]*(\([a-z_]+\))? (=>|\|)'
printf '%-3s %5s  %s\n' 8a "$(git ls-tree -r --name-only "$commit" crates | grep -c '/proofs/.*Answers\.antt$')" 'functions with answers of their own'
printf '%-3s %5s  %s\n' 8b "$(git grep -cE '^\S+ c = search \([a-z_, ]+\)$' "$commit" -- 'crates/*/proofs/*' | awk -F: '$NF > 2' | wc -l)" 'of them with one search three times and more'
