# What the scripts share that run a proved program on lists. A script sets `name`, its own name, and `root`, the
# repository, before it reads this file.

readonly LOST=1 UNUSABLE=2
readonly log=$root/target/$name.log

# stop STATUS MESSAGE
stop() {
    echo "$name: $2" >&2
    exit "$1"
}

# copy LIST FILE: copies a list. A pipe can be read only once, and its length is known only then.
copy() {
    { [ -f "$1" ] || [ -p "$1" ]; } && [ -r "$1" ] || stop $UNUSABLE "'$1' is not a readable file or pipe"
    cat <"$1" >"$2" || stop $UNUSABLE "'$1' could not be copied"
}

# find_program NAME: sets `program` to a proved program, and builds it if it is not there.
find_program() {
    program=$root/target/bin/$1
    [ -x "$program" ] || build "$1"
}

# Proves and builds the program. The prover says much, of which its own lines show how far it is.
build() {
    command -v rt >/dev/null || stop $UNUSABLE "the Rattle toolchain is missing: put its command 'rt' on the PATH"
    mkdir -p "$root/target" || stop $UNUSABLE "there is no room for the program"
    echo "$name: building the $1 program, which takes minutes; the prover's output goes to $log" >&2
    "$root/scripts/build" "$1" </dev/null 2>&1 | tee "$log" | grep --line-buffered '^rt: ' >&2
    [ "${PIPESTATUS[0]}" -eq 0 ] && [ -x "$program" ] && return
    rm -f "$program" # or the next run would take it for a good one
    stop $UNUSABLE "the build failed: see $log"
}

# temporary: sets `folder` to a folder that goes when the script ends.
temporary() {
    folder=$(mktemp -d) || stop $UNUSABLE "there is no room for copies of the lists"
    trap 'rm -rf "$folder"' EXIT
}
