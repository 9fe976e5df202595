# Sourced after ../missing.sh, with $top the repository: what the judge is built from.

registry=/usr/share/cargo/registry

# The original Rust, in the folder that CEL_RUST_SRC names or else beside the repository, each file with the sum that it had when it was ported; sets
# $source. A folder that was named and is not there is a slip (status 2), the usual one may be absent (3), and another text is another program (1).
find_originals() {
	source=${CEL_RUST_SRC-$top/../shared/docs/src}
	sums=$top/tests/judge/originals.sha256
	lost=$(while read -r sum file; do [ -f "$source/$file" ] || echo "$file"; done <"$sums")
	[ -z "$lost" ] || {
		[ -z "${CEL_RUST_SRC+set}" ] || originals_fail 2 "the folder that CEL_RUST_SRC names lacks a file of the original Rust: $source/${lost%%[!-a-zA-Z0-9_./]*}"
		missing "the original Rust: let CEL_RUST_SRC name a folder with dfinity/response-verification at 2de9e04b37"
	}
	changed=$(cd "$source" && sha256sum --check --quiet "$sums" 2>/dev/null) ||
		originals_fail 1 "a file of the original Rust has another sum than in tests/judge/originals.sha256: $source/${changed%%:*}"
}

originals_fail() {
	echo "$(basename "$0"): $2" >&2
	exit "$1"
}

# The crates that the original uses, from Debian: nom in the version that it was compared with.
find_crates() {
	have_crates || debian librust-nom-dev librust-thiserror-dev && have_crates ||
		missing "nom 7.1.1 and thiserror 1 in $registry: install librust-nom-dev and librust-thiserror-dev of Debian 12"
}

have_crates() {
	ls -d "$registry/nom-7.1.1" "$registry"/thiserror-1.* >/dev/null 2>&1
}
