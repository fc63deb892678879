# shellcheck shell=sh
# For scripts: ends with status 2 and the line that installs what is missing, of commands or files, each with Debian's
# package.
#
#     . tools/need.sh
#     need cc=gcc /usr/include/expat.h=libexpat1-dev
need() {
    missing=
    for pair in "$@"; do
        case $pair in
        /*) [ -e "${pair%%=*}" ] || missing="$missing ${pair#*=}" ;;
        *) command -v "${pair%%=*}" >/dev/null || missing="$missing ${pair#*=}" ;;
        esac
    done
    [ -z "$missing" ] || { echo "missing: apt-get install --no-install-recommends$missing" >&2; exit 2; }
}
