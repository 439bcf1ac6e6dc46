#!/bin/sh
# check_cmake.sh: builds by CMake with four processes, runs its tests, installs into an empty folder, and builds a program that finds the library
# there by find_package. It wants Debian's cmake.
set -eu
cd "$(dirname "$0")/../.."
room=$(mktemp -d)
trap 'rm -rf "$room"' EXIT
log=$room/log
trap 'tail -n 40 "$log" >&2; rm -rf "$room"' EXIT
{
    cmake -S . -B "$room/build" -DCMAKE_INSTALL_PREFIX="$room/usr"
    cmake --build "$room/build" -j4
    ctest --test-dir "$room/build" --output-on-failure
    cmake --install "$room/build"
    mkdir "$room/user"
    printf '%s\n' 'cmake_minimum_required(VERSION 3.16)' 'project(user C)' "find_package(dasd $(cut -d . -f 1,2 VERSION) REQUIRED)" \
        'add_executable(user user.c)' 'target_link_libraries(user PRIVATE dasd::dasd_static)' \
        'add_executable(shared user.c)' 'target_link_libraries(shared PRIVATE dasd::dasd_shared)' > "$room/user/CMakeLists.txt"
    printf '%s\n' '#include <dasd.h>' 'int main(void) { return dasd_interface() != DASD_INTERFACE; }' > "$room/user/user.c"
    cmake -S "$room/user" -B "$room/user/build" -DCMAKE_PREFIX_PATH="$room/usr"
    cmake --build "$room/user/build" -j4
    "$room/user/build/user"
    "$room/user/build/shared"
} > "$log" 2>&1
trap 'rm -rf "$room"' EXIT
grep 'tests passed' "$log"
