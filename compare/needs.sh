# Sourced by the scripts `run`. What a run needs is looked for before anything is built, and all that is missing is said at once: some of it is used
# only after minutes.
#
#     need_program NAME [WORDS]    a program, and what more is to be said of it
#     need_rust SOURCE             the directory of the three Rust files; empty if the caller did not name it
#     all_there [--install] PACKAGE ..    ends the run if something is missing; packages are installed by the option, or after a question
#
# `without` and `without_blender` are the caller's options that leave the Rust or Blender out, empty where it has none.
missing=()

need_program() {
    command -v "$1" > /dev/null || missing+=("the program $1${2:+, $2}")
}

need_rust() {
    local files='reader.rs, data_structure.rs and transform.rs of vdb-rs at commit 778643d09f'
    if [ -z "$1" ]; then
        missing+=("the directory of the three Rust files, $files, which are not in this repository. Name it as SOURCE${without:+,
  or leave the Rust out with $without}")
    elif ! (cd "$1" && sha256sum --status -c "$root/compare/rust/source.sha256") 2> /dev/null; then
        missing+=("in $1 $files: one is not there, or has another sum than compare/rust/source.sha256${without:+. $without leaves the Rust out}")
    fi
}

all_there() {
    local install='' packages
    if [ "$1" = --install ]; then
        install=--yes
        shift
    fi
    packages=$("$root/tools/install" --list "$@")
    if [ ${#missing[@]} -gt 0 ]; then
        printf 'Nothing was built or compared. Missing:\n' >&2
        printf -- '- %s\n' "${missing[@]}" ${packages:+"packages of Debian, which the option --install installs: $packages"} >&2
        exit 1
    fi
    if [[ -z $install && -n ${without_blender:-} && " $packages " == *' blender '* ]]; then
        echo "Blender takes 572 MB with all that it needs; $without_blender leaves it out." >&2
    fi
    # shellcheck disable=SC2086
    "$root/tools/install" $install "$@"
}
