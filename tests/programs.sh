# Sourced, with $top the repository and a function `fail`.

# find_program NAME: proves and builds the program, or takes it from the folder that HILLADOK_BIN_DIR names; sets $program.
# `rt run` builds it, and runs it on no input.
find_program() {
	if [ -n "${HILLADOK_BIN_DIR+set}" ]; then
		program=$HILLADOK_BIN_DIR/$1
		[ -x "$program" ] || fail "HILLADOK_BIN_DIR names a folder without $1: $HILLADOK_BIN_DIR" 2
		return
	fi
	command -v rt >/dev/null || fail "rt, the Rattle kit's command, is not on the PATH" 2
	program=$top/target/bin/$1
	mkdir -p "$top/target/bin"
	(cd "$top/crates/$1" && rt run </dev/null) >"$top/target/$1.log" 2>&1 || {
		tail -n 5 "$top/target/$1.log" >&2
		fail "$1 is not proved: the whole output is in target/$1.log"
	}
	take_program "$1" "$top/crates/$1/out"
}

# take_program NAME FOLDER: target/bin gets the program that rt left in this folder. One that is running stays as it is for itself.
take_program() {
	mkdir -p "$top/target/bin"
	cp "$2/$1" "$top/target/bin/$1.new" && mv "$top/target/bin/$1.new" "$top/target/bin/$1" || fail "rt left no program $1 in $2"
}

# take_programs: target/bin gets the programs that `rt ci` proved, built and ran.
take_programs() {
	for program in $(crate_names); do
		[ ! -f "$top/crates/$program/src/main.rt" ] || take_program "$program" "$top/crates/$program/out"
	done
}
