# Sourced by the tests that need the judge, with $here the folder tests/ and $0 the test.
# Sets $programs, the folder of judge and texts, and $work, a folder that goes when the test ends.
# Where this machine cannot have the judge the test ends as the build does: with status 3 and one line.

work=$(mktemp -d)
trap 'rm -rf "$work"' EXIT
trap 'exit 1' HUP INT TERM

programs=$("$here/judge/build") || exit $?
