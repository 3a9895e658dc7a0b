# A small checkout in $top, with the tools as they stand, and a kit in $kit in the place of the real one: its programs are scripts that
# tell what they were made from. Each process of its front end leaves its number in $log. Transcripts take this in first.
of=$(cd "$TESTDIR/../../.." && pwd)
# a path that a shell would take apart
top="$PWD/it's a \$top" kit=$PWD/kit log=$PWD/kit/log

# The kit as it stands in `data`: what its front end waits for, and what its clang does first, are given as words of sh.
make_kit() {
    mkdir -p "$kit/toolchain/lib" "$kit/c"
    cp -r "$of/tests/support/data/kit/." "$kit"
    touch "$kit/toolchain/lib/any" "$kit/START-HERE.md" "$kit/c/asan.a" "$kit/c/libos_c.a" "$kit/c/liblibc_c.a" "$kit/WHAT"
    echo "${1-}" > "$kit/waits"
    echo "${2-}" > "$kit/clang_first"
}

make_tree() {
    rm -rf "$top" "$kit"
    mkdir "$top"
    # with what Python keeps of the modules, so that each tree begins sooner
    cp -r "$of/dev" "$of/tools" "$of/registryd" "$of/test" "$of/__main__.py" "$of/VERSION" "$of/HANDLES" "$top"
    ln -s "$of/registry_cli" "$of/registry_service" "$of/registryd_lines" "$top"
    printf 'low: \nregistryd: low\nprobe: low\nother: \nembedded staticlib: low\n' > "$top/crates.txt"
    for name in low registryd probe other embedded; do
        mkdir -p "$top/crates/$name/src" "$top/crates/$name/proofs"
        printf %s "$name" > "$top/crates/$name/proofs/Lib.antt"
        echo "echo $name \$*" > "$top/crates/$name/src/lib.rt"
    done
    for name in registryd probe; do mv "$top/crates/$name/src/lib.rt" "$top/crates/$name/src/main.rt"; done
    cp "$of/tests/support/data/exports.txt" "$top/crates/embedded/src/lib.rt"
    make_kit
    cd "$top"
}

registryd() { "$top/registryd" "$@" < /dev/null; }
build() { "$top/tools/build" "$@" < /dev/null; }
state() { registryd --version | tail -n 1; }

# How often the front end was begun.
compilations() { if [ -e "$log" ]; then wc -l < "$log"; else echo 0; fi; }

# What stands in out/ beside programs, notes and locks.
left() { ls "$top/out" | grep -vE '^(proved|compiled|unchecked|\w+\.(lock|current))$'; return 0; }

# What is told of the program while a file differs, and once it is as it was.
changed() {
    mkdir -p "$(dirname "$1")"
    if [ -e "$1" ]; then cp "$1" "$kit/kept"; else rm -f "$kit/kept"; fi
    echo '# more' >> "$1"
    state
    if [ -e "$kit/kept" ]; then cp "$kit/kept" "$1"; else rm "$1"; fi
    state
}

unset REGISTRYD PROBE EMBEDDED REGISTRY_PROGRAM GLIBC_TUNABLES
PATH=$kit/bin:$(dirname "$(command -v python3)"):/usr/bin:/bin
make_tree

# Folders for tests, in which there are none, with what the tests of a tree need beside themselves.
make_tests() {
    rm -rf tests
    mkdir -p tests/support tests/in_process tests/program tests/servers bench/tests edits
    cp "$of/conftest.py" "$of/pyproject.toml" .
    cp "$of/tests/__init__.py" tests
    cp "$of/tests/support/said.py" "$of/tests/support/time_limit.py" tests/support
    touch tests/support/__init__.py tests/in_process/__init__.py tests/program/__init__.py tests/servers/__init__.py
}

# Puts a file of tests there, from standard input.
tests_in() {
    { printf 'import os, subprocess, time, unittest\nimport pytest\nfrom tests.support import said\n'; cat; } > "tests/$1"
}

# `./test`, on one processor: so it begins few processes for its few tests.
tested() { taskset -c "$(taskset -cp $$ | sed 's/.*[ ,-]//')" "$top/test" "$@" < /dev/null; }

# The last lines of a run of tests that asks for no program, and its status.
ends() {
    lines=$1
    shift
    REGISTRYD=none EMBEDDED=none PROBE=${PROBE-none} tested "$@" --tools > "$kit/said" 2>&1
    status=$?
    tail -n "$lines" "$kit/said"
    return $status
}
