#!/bin/bash
# Lists, at the top of a checkout, the places that docs/DESIGN-PASS.md speaks of, a heading for each point.
# Usage: tools/count_forms.sh [POINT]
cd "$(git rev-parse --show-toplevel)" || exit 1
rt_files() { git ls-files 'crates/*/src/*.rt' | grep -v '/tests\.rt$'; }
lemma_files() { git ls-files 'crates/*/proofs/*.antt' | grep -E '^crates/[a-z]+/proofs/[A-Z][A-Za-z]*\.antt$' | grep -v Lib; }
point() { [ -z "$ONLY" ] || [ "$ONLY" = "$1" ] && echo "== $1. $2"; }
ONLY=$1

point 1 'own enums; flags; numbers for kinds; matches that only pass a failure on' && {
  rt_files | xargs grep -nE '^\s*(pub(\(crate\))? )?enum '
  rt_files | xargs grep -nE '^\s*pub [a-z_0-9]+: bool,'
  rt_files | xargs grep -nE '\b(opcode|param|width|cause): u8'
  rt_files | xargs grep -nE 'else \{$|Err\(\w+\) => (return )?Err|Err\(\w+\) => return|None => (return )?None' | grep -vE '\} else \{$'
}
point 2 'names that more than one function or type has' && {
  rt_files | xargs grep -nE '^\s*(pub(\(crate\))? )?(fn|struct|enum|trait) ' |
    sed -E 's/^([^:]*):[0-9]+:\s*(pub(\(crate\))? )?(fn|struct|enum|trait) ([A-Za-z_]+).*/\5 \1/' | sort |
    awk '{n[$1]++; at[$1] = at[$1] " " $2} END {for (k in n) if (n[k] > 1) print k ":" at[k]}' | sort
}
point 3 'loops' && rt_files | xargs grep -nE '^\s*(for|while|loop)\b'
point 4 'conversions, comparisons and printing' && {
  rt_files | xargs grep -nE 'fn (eq|ne|cmp|clone|default|from|try_from|fmt|name|meaning|number|read|new|bytes|of|head|alike|heads_alike|follows|small|address|show_\w+)\b'
  rt_files | xargs grep -nE ' as u(8|16|32|64)\b'
}
point 5 'facts that stand in three contracts or more' && {
  rt_files | xargs grep -hE '^\s*(requires|ghost \w+: \{|ensures)' |
    sed -E 's/^\s*//; s/,$//; s/^(requires|ensures|ghost)( \w+:?)? \{/\1 {/; s/\b(self|beat|head|c)\.//g; s/«data»/data/g' |
    grep -E '^requires|^ghost|map \(' | sort | uniq -c | sort -rn | awk '$1 > 2'
}
point 6 'lengths and buffers' && rt_files | xargs grep -nE '\[[a-z0-9]+; [0-9A-Z]+\]|\b(len|length|size|count): usize|Vec<\(|&mut \[u8\]'
point 7 'predicates and steps that are chosen' && rt_files | xargs grep -nE 'enum (Stretch|Step|Mode|Action)|: fn\(|\bdyn |impl Fn|match self \{'
point 8 'answers; lemma statements' && {
  echo "answer files: $(git ls-files 'crates/*/proofs/**/Answers.antt' | wc -l)"
  echo "answers: $(git ls-files 'crates/*/proofs/**/Answers.antt' | xargs cat | grep -cE '^pub [a-zA-Z_0-9-]+ : goal\.')"
  echo "lemma statements in proofs/: $(lemma_files | xargs cat | grep -cE '^ *(pub )?[a-zA-Z_0-9-]+ : ')"
  echo "lines of proofs/: $(git ls-files 'crates/*/proofs/*.antt' 'crates/*/proofs/**/*.antt' | sort -u | xargs cat | wc -l), of specs/: $(git ls-files 'crates/*/specs/*.antt' | xargs cat | wc -l), of src/: $(git ls-files 'crates/*/src/*.rt' 'crates/*/src/**/*.rt' | sort -u | xargs cat | wc -l)"
}
exit 0
