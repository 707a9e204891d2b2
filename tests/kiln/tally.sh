# Sourced by the tests of kiln: counts what passes and what fails, and makes a folder for what they write.
passed=0
failed=0
made=$(mktemp -d) || exit 2
trap 'rm -rf "$made"' EXIT

# A test passes when its command ends with status 0.
try() {
    local name=$1
    shift
    if "$@"; then
        passed=$((passed + 1))
    else
        failed=$((failed + 1))
        echo "kiln: $name failed"
    fi
}

# The last line of a test, and its exit status.
tell() {
    echo "$passed passed, $failed failed"
    [[ $failed -eq 0 && $passed -gt 0 ]]
}
