# Builds what the scripts verdict, translate and table need, where it is missing or a source is newer. Sourced after words.sh.
#
# Each script has a stamp in target/ready, with the time at which its last build that passed began: a source that changes during a build is newer. So
# have the library and each program (scripts/build sets those).
# Times are those of the last change of any kind, so that an older file that is copied over a source counts too, and folders count, so that a removed
# file does. The folder of a crate itself does not: the toolchain makes and moves crates/NAME/out in it. Where nothing is newer, a call starts
# neither rt nor cargo. Builds wait for each other; answers wait for none.
stamps=$root/target/ready
proved=("$root/crates.txt" "$root/TOOLCHAIN")
tool=("$root/tool" "$root/bindings" "$root/Cargo.toml" "$root/Cargo.lock" "$root/.cargo")

# Prints the first of the sources that is newer than the stamp. Edits, tests and what is built are no sources.
newer() { # STAMP SOURCE..
    find "${@:2}" \( -name must-fail -o -name tried -o -name tests -o -name out \) -prune -o -cnewer "$1" -print -quit 2>/dev/null
}

# The same of the sources of what is proved.
newer_proved() { # STAMP
    find "$root/crates" -mindepth 2 \( -name must-fail -o -name tried -o -name out \) -prune -o -cnewer "$1" -print -quit 2>/dev/null
    newer "$1" "${proved[@]}"
}

# Why the things of this script must be built: a line, or nothing.
wanted() { # THING..
    local thing source
    for thing; do
        [ -f "$thing" ] || { echo "${thing#"$root/"} is not there"; return; }
    done
    [ -f "$stamps/$name.script" ] || { echo "nothing says that it is up to date"; return; }
    source=$({ newer_proved "$stamps/$name.script"; newer "$stamps/$name.script" "${tool[@]}"; } | head -n 1)
    [ -z "$source" ] || echo "${source#"$root/"} has changed"
}

# Builds one proved thing, where that is needed.
build_proved() { # THING FILE
    [ -f "$2" ] && [ -f "$stamps/$1" ] && [ -z "$(newer_proved "$stamps/$1")" ] || "$root/scripts/build" "$1"
}

# The stamp of the script is set where all passes.
build() { # [PROGRAM]
    local stamp=$stamps/$name.script
    : >"$stamp.began" || return
    [ $# -eq 0 ] || build_proved "$1" "target/bin/$1" || return
    build_proved library target/staticlib/liblasso.a && cargo build --release -p table && mv "$stamp.began" "$stamp"
}

# Ends the script where something that building needs is missing.
can_build() {
    local word
    for word in rt cargo flock; do
        command -v "$word" >/dev/null || { echo "$name: $word is not on the PATH, and it is needed to build" >&2; exit 2; }
    done
    [ "$(uname -m)" = x86_64 ] || { echo "$name: the programs are for 64-bit x86; this machine is $(uname -m)" >&2; exit 2; }
}

# Makes sure that the tool and the proved program are built from the present sources. Those who waited for the lock look again. The lock is on
# crates.txt, which is always there. What is started here neither holds the lock nor reads standard input, which may be the table.
ready() { # [PROGRAM]
    local things=("${@/#/"$root/target/bin/"}" "$root/target/cargo/release/table" "$root/target/cargo/release/ask") why
    why=$(wanted "${things[@]}")
    [ -n "$why" ] || return 0
    can_build
    {
        flock -n 9 || { echo "$name: waiting for a build that is under way .." >&2; flock 9; } || exit 2
        why=$(wanted "${things[@]}")
        [ -n "$why" ] || return 0
        echo "$name: proving and building (some minutes the first time): $why .." >&2
        mkdir -p "$stamps" || exit 2
        (cd "$root" && build "$@") </dev/null >"$stamps/log" 2>&1 9<&- || failed_build
    } 9<"$root/crates.txt"
}

failed_build() {
    cat "$stamps/log" >&2
    echo "$name: the build failed" >&2
    exit 2
}
