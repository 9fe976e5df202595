# Sourced with $here the folder tests/fuzz and $top the repository.

# Rows of up to 40 spaces in an accepted text, before a letter too many in it, in a string, and at a text's end.
spaced_inputs() {
	call=$(printf 'default_certification(' | od -An -v -tx1 | tr -d ' \n')
	rest=$(printf 'ValidationArgs{no_certification:Empty{}})' | od -An -v -tx1 | tr -d ' \n')
	awk -v call="0020$call" -v rest="$rest" 'BEGIN {
		for (row = ""; length(row) <= 2 * 40; row = row "20") {
			print call row rest
			print call row "61" rest
			print "00205b2261" row "61225d"
			print call row
		}
	}'
}

# The inputs that are kept, in hex, one a line: those made by hand, those that a fuzzer found, rows of spaces, and the texts that
# `ask` is run on for verdicts and answers, with an output of 8,192 bytes.
kept_inputs() {
	grep -hv '^#' "$here/seeds" "$here/corpus"
	spaced_inputs
	LC_ALL=C awk -F '\t' '
		($1 == "verdicts" || $1 == "answers") && $2 ~ /^[0-9a-f]*$/ && length($2) % 2 == 0 && length($2) <= 2 * 8200 { print "0020" $2 }
	' "$top/crates/ask/stdin"
}
