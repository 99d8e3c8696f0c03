# Sourced by the commands in tools/.

# needs MODULE COMMAND...: ends with one line if a command is missing, or a module of Python that MODULE loads.
needs() {
    module=$1
    shift
    for name; do
        command -v "$name" > /dev/null || lacks "$name is not installed"
    done
    why=$(python3 -c "import $module" 2>&1) || lacks "$(printf '%s\n' "$why" | tail -n 1)"
}

lacks() {
    printf '%s: %s\n' "$0" "$1" >&2
    [ "${0##*/}" != test ] || echo '0 passed, 1 failed'
    exit 1
}
