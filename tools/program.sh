# shellcheck shell=sh disable=SC2034,SC2154
# What ./rdfax, ./build, ./install and ./package share. Before they read this they set `here` to the top of the repository.

# How long ./build takes.
time_of_build="about 20 minutes on four processors, if nothing else runs on them"

# Where ./build puts what it makes. Nothing else writes there, so it stands while ./test runs.
built=$here/built

# The proved program and the proved library, once they are built, and the C library that is linked of the latter.
program=$built/rdfax
archive=$built/librdfax_c.a

# The proved program that a passed ./test leaves, and that is set aside while the next one runs.
tested=$here/crates/rdfax/out/rdfax

version=$(cat "$here/VERSION")
soname=librdfax.so.0
shared=librdfax.so.$version

# The crates that the named ones are made of, by crates.txt, each after those below it. The others only test.
crates_of() {
    awk -v wanted="$*" '
        function take(name, libraries, count, i) {
            if (name in taken || !(name in below)) return
            taken[name] = 1
            count = split(below[name], libraries, " ")
            for (i = 1; i <= count; i++) take(libraries[i])
            print name
        }
        { sub(/#.*/, "") }
        /:/ { name = $1; sub(/:.*/, "", name); sub(/^[^:]*:/, ""); below[name] = $0 }
        END { count = split(wanted, names, " "); for (i = 1; i <= count; i++) take(names[i]) }
    ' "$here/crates.txt"
}

# Whether the file $1 stands and is newer than all that the crate $2 is made of.
is_newer() {
    [ -f "$1" ] || return 1
    # shellcheck disable=SC2046 # the name of a crate has no white space
    newer=$(cd "$here/crates" && find ../crates.txt $(crates_of "$2") \( -name out -o -name must-fail \) -prune -o \
        -type f -newer "$1" -print | head -n 1)
    [ -z "$newer" ]
}

# Whether the proved program stands and is newer than its sources.
is_current() {
    [ -x "$program" ] && is_newer "$program" rdfax
}

# Whether the C library stands and is newer than its sources.
is_linked() {
    [ -f "$built/$shared" ] && is_newer "$archive" rdfax_c || return 1
    newer=$(find "$archive" "$here/VERSION" "$here/include" "$here/native" -type f -newer "$built/$shared" -print | head -n 1)
    [ -z "$newer" ]
}

# Prints the file by which pkg-config finds the library: the prefix, and the folders of the libraries and of the header.
write_pc() {
    sed -e "s|@prefix@|$1|" -e "s|@libdir@|$2|" -e "s|@includedir@|$3|" -e "s|@version@|$version|" "$here/native/rdfax.pc.in"
}

# Ends the script where there is no kit. The argument is the script's name.
need_kit() {
    command -v rt >/dev/null 2>&1 && return
    echo "$1: the command rt isn't on the path; it belongs to the Rattle kit, which proves, builds and tries the program" >&2
    exit 70
}
