# Sourced. crate_names and keep_said are called at the top of the repository.

# crate_names: the names in crates.txt.
crate_names() {
	sed -n 's/^\([a-z][a-z0-9_]*\)[^#:]*:.*/\1/p' crates.txt
}

# prove LOG WORDS...: `rt` with these words. All that it says goes to a file; a line for each crate is shown as it comes.
prove() {
	log=$1
	shift
	{ rt "$@" 2>&1 || echo "rt ended with status $?"; } | tee "$log" | sed -u -n '/^== summary$/d; /^rt: note: /d; s/^== \([a-z][a-z0-9_]*\)$/rt: \1/; /^rt: /p'
	! tail -n 1 "$log" | grep -q '^rt ended with status '
}

# keep_said LOG: what rt says of the proof of each crate goes to target/log/NAME.say: from this log of `rt ci`, or where that kept the crate from an earlier
# run and says no more, from `rt check`. Fails where one is not proved.
keep_said() {
	rm -rf target/log
	mkdir -p target/log
	[ ! -f "$1" ] || awk '
		/^== [a-z][a-z0-9_]*$/ { file = "target/log/" $2 ".say"; next }
		/^== / || /^rt: [a-z0-9_]+ (NOT PROVED|proved)$/ { file = "" }
		file != "" { print > file }
	' "$1"
	for crate in $(crate_names); do
		grep -q '^logic=proved ' "target/log/$crate.say" 2>/dev/null || echo "$crate"
	done | xargs -P "$(nproc)" -I NAME sh -c '(cd crates/NAME && rt check) >target/log/NAME.say 2>&1'
}
