#!/bin/sh
# check_all.sh COMPILER FLAGS RUN: `make check`, and everything else that needs no kit: each a line 'passed', 'FAILED' with what it said last, or
# 'left out' with what is missing and the Debian package that has it. The last line is 'N passed, M failed'.
set -u
cc=$1 flags=$2 run=$3 passed=0 failed=0
export PYTHONDONTWRITEBYTECODE=1
[ -n "${TMPDIR-}" ] || [ ! -w /dev/shm ] || export TMPDIR=/dev/shm

# part WHAT 'COMMANDS' 'PACKAGES' COMMAND..: runs a part, where the commands that it wants are here.
part() {
    what=$1 wanted=$2 packages=$3
    shift 3
    for it in $wanted; do
        if ! command -v "$it" > /dev/null; then
            echo "left out: $what: no $it (Debian's $packages)"
            return
        fi
    done
    if "$@" > out/said 2>&1; then
        passed=$((passed + 1))
        echo "passed: $what"
    else
        failed=$((failed + 1))
        echo "FAILED: $what"
        tail -n 30 out/said
    fi
}

sh tools/build/check.sh "$cc" "$flags" "$run"
status=$?
if [ -n "$run" ]; then
    echo "left out: everything else, which is for this machine's own compiler"
    exit "$status"
fi
dasd=$PWD/dasd
part "tests of the libraries in C, C++, Python and Rust" "c++ python3" "g++ python3" make -C c check CC="$cc"
part "the conformance suite, vectors and lists by chance" python3 python3 env DASD="$dasd" conformance/check
part "examples of all pages" "python3 pkg-config" "python3 pkg-config" tools/run gate/run_pages --built dasd
part "the sample pack" python3 python3 sample/test_sample.py "$dasd"
part "dasd over real files" python3 python3 tools/run gate/real_files --built dasd
part "each system call that fails" strace strace tools/run gate/fail_calls --built dasd --jobs 2
part "power that is lost at each call" strace strace tools/run gate/lose_power --built dasd --jobs 2
part "the catalogue of an archive" "python3 sqlite3" "python3 sqlite3" catalogue/check dasd
part "what is planted in a clone and in packages" "python3 aarch64-linux-gnu-gcc" "gcc-aarch64-linux-gnu" release/tests/run
part "the build by CMake" cmake cmake sh tools/build/check_cmake.sh
part "the manual pages" "man mandoc" "man-db mandoc" sh tools/build/check_manual.sh
echo "$passed passed, $failed failed, beside what make check says above"
[ "$failed" -eq 0 ] && [ "$status" -eq 0 ]
