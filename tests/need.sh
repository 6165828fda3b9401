# To be sourced: `need WHY TOOL...` ends the script that calls it where one of the tools is missing, and says why it is needed.
need() {
    why=$1
    shift
    for tool in "$@"; do
        if ! command -v "$tool" >/dev/null 2>&1; then
            echo "$(basename "$0"): $tool is missing; $why" >&2
            exit 1
        fi
    done
}
