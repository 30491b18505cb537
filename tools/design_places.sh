#!/bin/sh
# Lists the places in src/ that an older form of Rattle may have shaped, a section for each point of docs/DESIGN-PASS.md.
# Run it at the top of the repository; `-c` prints the counts alone. It finds lines, and reading says what each one is.
counts=no
[ "$1" = "-c" ] && counts=yes

places() { # LABEL PATTERN [LESS]
    found=$(grep -rnE --include="*.rt" -e "$2" crates/*/src | grep -vE "${3:-^$}" | grep -vE '^[^:]*:[0-9]*: *//')
    number=$(printf '%s' "$found" | grep -c .)
    echo "$1: $number"
    [ "$counts" = no ] && [ "$number" != 0 ] && printf '%s\n' "$found" | sed 's/^/    /'
    return 0
}

places "1a operations of rows by number" 'operation: [0-9]|operation [<>=!]=? ?[0-9]|match (table\[row\]|row|found\.row|rule)\.operation|const [A-Z]+: u8 = [0-9];|OPERATIONS: \[u8|draw_leaf\(random: &mut Random, operation: u8|query\.operation, ending'
places "1b a value beside the refusal that says whether it stands" 'struct Opened|over: bool'
places "1c a number that stands for none" 'NEVER'
places "1d a refusal or fault in an Option" '-> Option<(Refusal|FileFault|PlanFault|Fault|FaultKind|\(usize, Fault\))>'
places "1e an error taken out and returned by hand" 'Err\((refusal|fault|error|_)\) => (return )?(Err|Some|None)|return Err\((refusal|fault)\)'
places "3a for over numbers" 'for [a-z_]+ in .*\.\.'
places "3b while and loop" '^ *(while .*\{|loop \{)$'
places "4a equality written field by field" '\.place == [a-z.]+\.place|\.setting == '
places "4b impl of Clone, Copy, PartialEq, Ord, Default by hand" 'impl.* (Clone|Copy|PartialEq|Eq|Ord|PartialOrd|Default) for'
places "4c a conversion by match" 'Some\((fault|prefix)\) => Some|Err\((refusal|error)\) => (Some\(refusal\)|Err)'
places "4d printing byte by byte" 'char::from\(\*byte\)'
places "4e casts" '[^a-z]as (u8|u16|u32|u64|usize)([^0-9a-z]|$)'
places "5a the sets are over the conditions of the network" 'requires over'
places "5b lists with a set for each place" 'requires (lengths|long)'
places "5c room in the work space" 'requires room'
places "5d the position is one of the network" 'requires inside'
places "5e a rule has one digit" 'requires digit'
places "5f main and spare together" 'spare: &mut \['
places "5g clauses of over 100 columns" '(ensures|requires)[^{]*\{.{90,}'
places "6a a buffer with its length" 'len: usize|count: usize'
places "6b parallel lists" 'settings: &(mut )?\[u32\]'
places "6c arrays and lists by number" 'if [a-z]+ < (self\.)?[a-z]+\.len\(\)|if i < (10|KINDS)'
places "7 a switch on which step to run" 'enum Round|round: Round|match round'
