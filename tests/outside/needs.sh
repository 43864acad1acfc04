# Read by the scripts that use tools from outside: `needs PACKAGES TOOL..` ends the script with 0, and says so, where a tool is missing,
# and makes a folder that goes when the script ends.
tools=riscv64-linux-gnu

needs() {
    local packages=$1 tool
    shift
    for tool in "$@"; do
        if ! command -v "$tool" > /dev/null; then
            echo "skipped: no $tool ($packages)"
            exit 0
        fi
    done
    folder=$(mktemp -d)
    trap 'rm -rf "$folder"' EXIT
}
