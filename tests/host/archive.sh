# Sourced by the tests that link the archive, with $top the repository, $made a folder that is there, and a function `fail`.

warnings='-Wall -Wextra -Wpedantic -Werror'

. "$top/tests/missing.sh"

# Ends the test where the machine cannot link the archive.
needs_machine() {
	[ "$(uname -sm)" = 'Linux x86_64' ] || missing "a machine that can link the archive: x86-64 Linux"
}

# Makes the archive, or takes the one in the folder that HILLADOK_LIB_DIR names; sets $archive.
find_archive() {
	if [ -n "${HILLADOK_LIB_DIR+set}" ]; then
		archive=$HILLADOK_LIB_DIR/libhilladok.a
		[ -f "$archive" ] || fail "HILLADOK_LIB_DIR names a folder without libhilladok.a: $HILLADOK_LIB_DIR" 2
		HILLADOK_LIB_DIR=$(cd "$HILLADOK_LIB_DIR" && pwd)
		archive=$HILLADOK_LIB_DIR/libhilladok.a
		echo "the archive is $archive"
		return
	fi
	archive=$top/target/libhilladok.a
	"$top/archive" >"$made/archive.log" 2>&1 || {
		cat "$made/archive.log" >&2
		fail "there is no archive to test"
	}
}
