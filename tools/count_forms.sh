#!/bin/sh
# Counts, at the top of a checkout, the places that docs/DESIGN-PASS.md speaks of: one line for each command, its
# name and its hits in src/. With a name as argument it prints that command's hits.
only=$1
hits() {
  name=$1
  pattern=$2
  if [ -z "$only" ]; then
    printf '%s %s\n' "$name" "$(grep -nE "$pattern" crates/*/src/*.rt | wc -l)"
  elif [ "$only" = "$name" ]; then
    grep -nE "$pattern" crates/*/src/*.rt
  fi
}
hits enums '^pub(\(crate\))? enum '
hits flags '&mut self.*-> bool|, bool\)'
hits codes '[-]> u8$|number: u8|: \[u64; 12\]'
hits unquestioned 'return Err\(refusal\)|Err\(error\) => Err|let Ok\(.*else|let Some\(.*= self.*else|None => Err\(Refusal'
hits types '^pub(\(crate\))? (struct|enum) '
hits functions '^ *(pub(\(crate\))? )?fn '
hits loops '^ *(for|while) '
hits index-loops 'for \w+ in .*\.\.|at \+= '
hits impls '^impl.*(From|TryFrom|FromStr|Display|PartialEq|Ord)(<.*>)? for '
hits by-hand 'fn \w*(_of|_text|_operator|number|json|hex_digit|hex_value|digit|text)\((self|heap|word|place|n|d|c|unit|operator|shape|rt|&self)\b'
hits repeated 'lender_of (sink|self).new|WellFormed self.now|n < self.now.used|root.is_some\(\)'
hits together 'heap: Global, words|rt: &HostRuntime, tally|entries: &\[Entry\], used|source: &.*folded: &|heap: Global, fields'
hits lengths '^ *(pub(\(crate\))? )?(len|used|room|count|next): (u16|usize),'
hits buffers ': \[\w+; \w+\]'
hits switches 'Recording::|match self \{'
