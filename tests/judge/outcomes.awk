# Counts answers by their outcome: what tests put in front of an awk program of their own, with `test` the test's name and `list`
# the file of known outcomes. The record is a line of the judge, or one of `ask`.

BEGIN { FS = "\t" }

# Ends the test; an END part must look at `stopped` first.
function stop(why) {
	print test ": " why > "/dev/stderr"
	stopped = 1
	exit 1
}

# The first three fields of an accepted line; a whole line otherwise.
function outcome() {
	return ($1 == "ok") ? $1 FS $2 FS $3 : $0
}

# A whole number with a comma before each three digits.
function commas(number, digits) {
	digits = sprintf("%d", number)
	while (match(digits, /[0-9][0-9][0-9][0-9]($|,)/))
		digits = substr(digits, 1, RSTART) "," substr(digits, RSTART + 1)
	return digits
}

# Shows the `count` of each outcome, and gives the known ones that never occurred; fails at one that the list does not know.
function show_counts(line, shown, never, known) {
	while ((getline line < list) > 0) {
		if (line ~ /^#/) continue
		known[line] = 1
		shown = line
		gsub(FS, " ", shown)
		if (count[line]) printf "%12s  %s\n", commas(count[line]), shown
		else never = never (never ? ", " : "") shown
	}
	for (line in count)
		if (!(line in known)) stop("an answer that no list knows: " line)
	return never
}
