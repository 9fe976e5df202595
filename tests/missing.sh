# Sourced. What a test needs and is not there: `missing` ends the test with status 3. Whoever runs the tests fails then, unless HILLADOK_MAY_SKIP=1.

# missing WORDS: one line says what is not there and how to get it.
missing() {
	echo "$(basename "$0"): missing: $1" >&2
	exit 3
}

# needs COMMAND PACKAGE: the command is there, or Debian's package brings it.
needs() {
	command -v "$1" >/dev/null || debian "$2" && command -v "$1" >/dev/null || missing "$1: install Debian's package $2"
}

# The original Rust has forms that came with Rust 1.65; Debian 12 has 1.63.
needs_cargo() {
	command -v cargo >/dev/null && rust=$(rustc --version 2>/dev/null | sed -n 's/^rustc 1\.\([0-9]*\)\..*/\1/p') && [ "${rust:-0}" -ge 65 ] ||
		missing "cargo, with Rust 1.65 or later: install it from rustup.rs"
}

# debian PACKAGE...: installs packages and says so in one line; fails where that cannot be.
debian() {
	command -v apt-get >/dev/null || return
	apt_install "$@" || { apt-get update -qq >/dev/null 2>&1 && apt_install "$@"; } || return
	echo "$(basename "$0"): installed from Debian: $*" >&2
}

apt_install() {
	DEBIAN_FRONTEND=noninteractive apt-get install -y -qq "$@" >/dev/null 2>&1
}
