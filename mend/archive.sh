# shellcheck shell=sh
# Sourced: a private apt configuration for another suite of the system's own Debian archive.
#
#     . archive.sh
#     archive_open FOLDER SUITE [deb|deb-src]    # writes the configuration in FOLDER, and reads the suite's lists
#     archive_apt update                         # apt-get with that configuration
#
# The system's packages and apt's own state stay as they are, and no root is needed: what apt knows of the archive is asked
# of apt, and the suite's name is changed.

archive_open() {
    archive=$1
    mkdir -p "$archive/lists/partial" "$archive/cache/archives/partial"
    archive_signed=
    archive_keyring=/usr/share/keyrings/debian-archive-keyring.gpg
    if [ -e "$archive_keyring" ]; then
        archive_signed="[signed-by=$archive_keyring] "
    fi
    # shellcheck disable=SC2016 # the fields are apt's
    apt-get indextargets --format '$(REPO_URI) $(CODENAME) $(COMPONENT)' 'Identifier: Packages' 'Origin: Debian' |
        awk -v codename="$(sed -n 's/^VERSION_CODENAME=//p' /etc/os-release)" -v suite="$2" -v begin="${3:-deb} $archive_signed" \
            '$2 == codename && $3 == "main" { print begin $1 " " suite " main" }' | sort -u >"$archive/sources.list"
    if [ ! -s "$archive/sources.list" ]; then
        echo "apt knows no Debian archive with the suite of this system; run apt-get update first" >&2
        return 1
    fi
    archive_apt update
}

archive_apt() {
    apt-get -qq -o Dir::Etc::sourcelist="$archive/sources.list" -o Dir::Etc::sourceparts=/dev/null -o Dir::State::lists="$archive/lists" \
        -o Dir::Cache="$archive/cache" -o Dir::Etc::preferencesparts=/dev/null -o APT::Sandbox::User="$(id -un)" \
        -o Acquire::Languages=none -o Acquire::IndexTargets::deb::Contents-deb::DefaultEnabled=false "$@"
}
