# Sourced by .ci/run and tests/run at the top of the repository: the tests that `rt` cannot run, in rows side by side, and what became of them, in the folder
# $kept, a new one for each run.
# A test that fails lets its row go on. One that lacks something (status 3) fails too, unless HILLADOK_MAY_SKIP=1: then it is skipped.

# The tests that need nothing proved. One of them calls `rt`, for its version. None writes where `rt` does, and what they make below the repository has no file of
# Rattle or antt, no crates.txt and no link, since `rt ci` refuses these: such things go to the system's folder for temporary files.
apart='tests/holes tests/imports tests/promises tests/quotes tests/scripts tests/needs-misuse tests/gate-misuse tests/facts-misuse tests/axioms-misuse tests/notice tests/judge-misuse tests/differential tests/fuzz/misuse'

# The archive, and the tests on it; the tests on the programs. The two rows take about the same time, and the first alone calls `rt`.
on_archive='./archive tests/axioms tests/host/run tests/fuzz/replay tests/readme'
on_programs='tests/explain tests/examples tests/spec-misuse tests/live tests/second-opinion tests/model/misuse tests/recordings/run tests/recordings/compare tests/recordings/misuse'

may_skip='. Where something is only missing, HILLADOK_MAY_SKIP=1 has the tests that need it skipped'

# row NAME COMMAND...: one after the other. What they say goes to NAME.log, and the names of those that failed, or were skipped, to lists.
row() {
	name=$1
	shift
	for command in "$@"; do
		began=$(date +%s)
		status=0
		alone "$command" >$kept/$name.said 2>&1 || status=$?
		echo "$command, $(($(date +%s) - began)) s"
		cat $kept/$name.said
		case $status,${HILLADOK_MAY_SKIP-} in
		0,*) ;;
		3,1) echo "SKIPPED: $command: $(grep -m 1 'missing: ' $kept/$name.said || echo "status 3")" | tee -a $kept/skipped ;;
		*) echo "$command" >>$kept/failed && echo "$command FAILS: status $status" ;;
		esac
	done >$kept/$name.log 2>&1
}

# ended PROCESS NAME: waits for a row and shows what it said. A row that did not come to its end has failed.
ended() {
	wait "$1" || echo "the row $2" >>$kept/failed
	cat $kept/$2.log
}

# alone COMMAND: with no input; what Python is to run lacks something where there is none.
alone() {
	case $(head -n 1 "$1") in
	*python3) command -v python3 >/dev/null || { echo "missing: python3" && return 3; } ;;
	esac
	"$1" </dev/null
}

# The rows on what is proved: the tests take the programs and the archive that lie in target/ and prove nothing.
rows_on_proved() {
	HILLADOK_BIN_DIR=$PWD/target/bin
	HILLADOK_LIB_DIR=$PWD/target
	export HILLADOK_BIN_DIR HILLADOK_LIB_DIR
	row archive "$@" $on_archive &
	first=$!
	row programs $on_programs &
	second=$!
	ended $first archive
	ended $second programs
	unset HILLADOK_BIN_DIR HILLADOK_LIB_DIR
}

# failed_tests: the names of those that failed, on one line.
failed_tests() {
	[ ! -f $kept/failed ] || sort $kept/failed | tr '\n' ' '
}

skipped_tests() {
	[ ! -f $kept/skipped ] || cat $kept/skipped
}
