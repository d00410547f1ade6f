# Puts a script before a program, which keeps its arguments.
wrapProgram() {
    local program=$1
    shift
    mv "$program" "$(dirname "$program")/.$(basename "$program")-wrapped"
    printf '#!%s\nexport %s\nexec "%s" "$@"\n' "$shell" "$*" \
        "$(dirname "$program")/.$(basename "$program")-wrapped" >"$program"
    chmod +x "$program"
}
