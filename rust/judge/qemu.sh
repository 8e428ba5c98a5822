# shellcheck shell=bash
# Sourced by run: the qemu that its machines run on.
#
# It must fault where A or D is clear, as request 07 has it. That of Debian 12 sets them, and has no option for the other; so the one of
# the backports suite is taken. It is unpacked into target/, with those of its libraries that the system lacks, and nothing is installed.
# Where it can't be had, the judge says so and fails.

beside=$top/target/qemu
system=$beside/unpacked/usr/bin/qemu-system-riscv64

# apt with sources, lists and a cache of its own. It checks signatures as ever, and knows what is installed.
apt_beside() {
    apt-get -q -o Dir::Etc::SourceList="$beside/sources.list" -o Dir::Etc::SourceParts=/dev/null \
        -o Dir::State::Lists="$beside/lists" -o Dir::Cache="$beside/cache" -o Debug::NoLocking=true "$@"
}

# The suites of Debian that the system has its packages from, and the backports of this one from the same place.
sources_beside() { # SUITE
    local source="deb [signed-by=/usr/share/keyrings/debian-archive-keyring.gpg] \$(SITE)"
    local all=('Origin: Debian' 'Created-By: Packages')
    apt-get indextargets --format "$source \$(RELEASE) \$(COMPONENT)" "${all[@]}" &&
        apt-get indextargets --format "$source $1-backports \$(COMPONENT)" "${all[@]}" "Codename: $1"
}

# The package, and the libraries that apt would install with it. A board without firmware and screen needs no more of what it depends on.
packages_beside() { # SUITE
    echo qemu-system-riscv
    apt_beside install --simulate --no-install-recommends -t "$1-backports" qemu-system-riscv |
        sed -nE 's/^Inst (lib[^ ]*) .*/\1/p'
}

unpack_qemu() { # SUITE
    local packages
    mkdir -p "$beside"/{lists,cache/archives}/partial "$beside"/{packages,unpacking} &&
        as_root apt-get -q update &&
        sources_beside "$1" | sort -u >"$beside/sources.list" &&
        apt_beside update &&
        packages_beside "$1" >"$beside/packages.list" &&
        mapfile -t packages <"$beside/packages.list" &&
        (cd "$beside/packages" && apt_beside download -t "$1-backports" "${packages[@]}") &&
        printf '%s\0' "$beside"/packages/*.deb | xargs -0 -I{} dpkg -x {} "$beside/unpacking" &&
        mv "$beside/unpacking" "$beside/unpacked"
}

find_qemu() {
    local suite
    ! run_qemu --version >"$built/qemu.log" 2>&1 || return 0
    suite=$(sed -n 's/^VERSION_CODENAME=//p' /etc/os-release)
    echo "unpacking: qemu-system-riscv of $suite-backports"
    rm -rf "$beside"
    unpack_qemu "$suite" >"$built/qemu.log" 2>&1 || {
        tail -20 "$built/qemu.log" >&2
        fail "could not unpack qemu-system-riscv of $suite-backports"
    }
}

run_qemu() { # OPTIONS..
    local libraries
    libraries=lib/$(uname -m)-linux-gnu
    LD_LIBRARY_PATH=$beside/unpacked/usr/$libraries:$beside/unpacked/$libraries timeout 60 "$system" "$@"
}
