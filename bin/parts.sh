# What the scripts share. They set `tool`, the name in their messages, and `root`, the checkout, and source this.
# shellcheck shell=sh disable=SC2034,SC2154

# A message; where even that cannot be written, the status still tells.
say() {
    printf '%s: %s\n' "$tool" "$1" >&2 || :
}

# No answer: a message, and status 2.
fail() {
    say "$1"
    exit 2
}

# Sees to closed streams, so that no file opened later is taken for one of them: a closed standard output is a failure,
# messages to a closed standard error are dropped, and a closed standard input becomes a folder, which cannot be read.
keep_streams() {
    (: 3>&2) || exec 2>/dev/null
    (: 3>&1) 2>/dev/null || fail 'standard output is closed'
    input=open
    (: 3<&0) 2>/dev/null || {
        input=closed
        exec </
    }
}

# Says so where the kit found is not the one that the project was proved with.
note_kit() {
    command -v rt >/dev/null || fail 'rt was not found: it is the Rattle kit, which proves and builds'
    found=$(rt version) || found='a kit without a version'
    wanted=$(cat "$root/KIT") || fail 'the file KIT, which names the kit, cannot be read'
    [ "$found" = "$wanted" ] ||
        say "found $found; the project was proved with $wanted: what passes here is proved by the kit found"
}

# What the library is made of, and what the Rust programs are made of beside it.
library='KIT crates.txt crates'
rust='rust/Cargo.toml rust/Cargo.lock rust/build.rs rust/src rust/tools'

# The mark of a file: the time of its last build that ended well.
mark() { # FILE
    echo "target/built-${1##*/}"
}

# Prints why FILE, called NAME, has to be built, or nothing where it is up to date: it is there, and nothing that it is made
# of is newer than its mark. In the checkout. A folder `out` is the kit's own, and so is the time of a folder that holds one.
reason() { # FILE NAME SOURCES
    if [ ! -f "$1" ]; then
        echo "$2 is missing"
    elif [ ! -f "$(mark "$1")" ]; then
        echo "$2 is not known to be up to date"
    else
        # shellcheck disable=SC2086
        newer=$(find $3 -name out -prune -o -newer "$(mark "$1")" ! -exec test -d '{}/out' ';' -print) || fail "what $2 is made of cannot be read"
        [ -z "$newer" ] || echo "$(echo "$newer" | head -n 1) is newer than $2"
    fi
}

# Builds FILE, called NAME, by BUILDER, in the checkout and under its lock.
build() { # FILE NAME BUILDER
    rm -f "$(mark "$1")"
    touch target/lock
    "$3" || fail "$2 could not be built"
    [ -f "$1" ] || fail "$2 could not be built: what builds it ended well, and made none"
    # The time of the build's start: a source edited since is newer, one only touched before is not.
    touch -r target/lock "$1" "$(mark "$1")"
    say 'built'
}

# Builds FILE, called NAME, by BUILDER, which calls COMMAND, where that is needed. One build at a time: whoever waited for
# another looks again.
up_to_date() { # FILE NAME SOURCES COMMAND BUILDER
    (
        cd -- "$root" || exit 2
        why=$(reason "$1" "$2" "$3") || exit 2
        [ -n "$why" ] || exit 0
        command -v "$4" >/dev/null || fail "$why, and $4, which builds it, was not found"
        { mkdir -p target && command exec 9>>target/lock; } 2>/dev/null ||
            fail "$why, and $root/target cannot be written"
        flock -n 9 || {
            say 'waiting for another build'
            flock 9 || fail 'target/lock cannot be locked'
        }
        why=$(reason "$1" "$2" "$3") || exit 2
        [ -n "$why" ] || exit 0
        [ "$4" != rt ] || note_kit
        say "building: $why"
        build "$1" "$2" "$5"
    ) </dev/null >&2 || exit 2
}

# The kit builds a program by running it, here on no bytes, and leaves what it builds in the crate's folder `out`.
build_clear() {
    cd crates/clear && rt run </dev/null >/dev/null && cd ../.. || return
    mkdir -p target/bin && cp -f crates/clear/out/clear target/bin/clear
}

build_archive() {
    cd crates/entry && rt lib && cd ../.. || return
    mkdir -p target/staticlib && cp -f crates/entry/out/libentry.a target/staticlib/libentry.a
}

build_rust_tool() {
    "$cargo" build --quiet --release --offline --manifest-path rust/Cargo.toml --package clearing-tools --bin "$tool"
}

# Becomes the Rust program named by `tool`, which is linked with this checkout's archive and no other.
run_rust_tool() { # ARGUMENTS
    unset CLEARING_ARCHIVE
    export CARGO_TARGET_DIR="$root/target/cargo"
    cargo=${CARGO:-cargo}
    program=target/cargo/${CARGO_BUILD_TARGET:+$CARGO_BUILD_TARGET/}release/$tool
    if [ -n "$(cd -- "$root" && reason "$program" 'the program' "$library $rust")" ]; then
        up_to_date target/staticlib/libentry.a 'the archive' "$library" rt build_archive
    fi
    up_to_date "$program" 'the program' "$library $rust" "$cargo" build_rust_tool
    exec "$root/$program" "$@"
}
