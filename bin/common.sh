# What the scripts of this folder share; each sources it once it has set `root`, the repository, and `name`, its program.

say() { printf 'bin/%s: %s\n' "$name" "$1" >&2; }

# a pipe or a device is as good as a file
must_read() { # FILE
    if [ -d "$1" ] || [ ! -r "$1" ]; then
        say "cannot read $1"
        exit 1
    fi
}

stale() {
    [ ! -x "$root/target/bin/$name" ] || [ ! -f "$root/target/$name.stamp" ] ||
        [ -n "$(find "$root/crates.txt" "$root"/crates/*/src "$root"/crates/*/specs "$root"/crates/*/proofs -newer "$root/target/$name.stamp" -type f -print 2>/dev/null | head -n 1)" ]
}

# one line for each crate that is proved, of as many as the program stands on
prove() {
    { "$root/tools/build" "$name" 2>&1; printf 'status %s\n' "$?"; } | {
        status=1
        while IFS= read -r line; do
            case $line in
                'status '*) status=${line#status } ;;
                *) say "$line" ;;
            esac
        done
        exit "$status"
    }
}

# proves and builds the program where that was not done yet, or not since a change
build() {
    stale || return 0
    if ! command -v rt >/dev/null 2>&1; then
        say "the Rattle toolchain (rt) is not on the path; it is needed to build the $name program"
        return 1
    fi
    say "proving and building the $name program; the first time this takes some minutes"
    # taken before the build, so that what is saved during it is built the next time
    touch "$root/target/$name.stamp.new" || return 1
    if ! prove; then
        say "the $name program could not be built; $root/target/$name.log says why, and its last lines are:"
        tail -n 5 "$root/target/$name.log" | cut -c1-200 >&2
        return 1
    fi
    mv "$root/target/$name.stamp.new" "$root/target/$name.stamp"
}

# in a pipe of two of these scripts the second one waits until the first has built
ready() {
    mkdir -p "$root/target" || exit 1
    if command -v flock >/dev/null 2>&1; then
        (flock 9 && build 9>&-) 9> "$root/target/build.lock" || exit 1
    else
        build || exit 1
    fi
}

# runs the program on standard input; it has no exit status of its own: what it says on standard error is a failure
run() {
    exec 3>&1
    complaint=$("$root/target/bin/$name" 2>&1 >&3 3>&-)
    if [ -n "$complaint" ]; then
        printf '%s\n' "$complaint" >&2
        exit 1
    fi
}
