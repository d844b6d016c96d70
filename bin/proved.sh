# Where the proved program is, and whether it is that of the sources. To be read by a script that has set `here`.
program=$here/crates/swanroll/out/swanroll
# made when the last build began
stamp=$here/crates/swanroll/out/built

# Whether no source is newer than this file.
is_newest() {
    [ -f "$1" ] && [ -z "$(find "$here/crates.txt" "$here/HANDLES" "$here/crates" -name out -prune -o -type f \( -name '*.rt' -o -name '*.antt' -o -name crates.txt -o -name HANDLES \) -newer "$1" -print | head -n 1)" ]
}

# Whether ./build has made the program of the sources as they are.
is_proved() {
    [ -x "$program" ] && is_newest "$stamp"
}

# Stops where the toolchain isn't there.
need_rt() {
    command -v rt > /dev/null && return
    echo "swanroll: there is no rt to build the program with: put the toolchain's bin on the path" >&2
    exit 127
}
