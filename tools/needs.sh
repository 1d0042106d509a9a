# Sourced by the scripts: `need COMMAND PACKAGE` installs Debian's package where the command is missing, and says so.
need() {
    if command -v "$1" >/dev/null; then
        return
    fi
    echo "there is no $1: installing Debian's package $2" >&2
    if ! { apt-get update -qq && apt-get install -y -qq "$2"; } >&2; then
        echo "it cannot be installed here: install $1, and call again" >&2
        exit 1
    fi
}
