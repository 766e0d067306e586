# What the shell tests share: a scratch folder, files compared, and tests that
# are counted.
scratch=$(mktemp -d) || { echo '0 passed, 1 failed'; exit 1; }
trap 'rm -rf "$scratch"' EXIT
passed=0
failed=0

# check NAME COMMAND ...: a test that passes where the command succeeds
check() {
    printf '%s ... ' "$1"
    shift
    if "$@" >"$scratch/said" 2>&1; then
        echo ok
        passed=$((passed + 1))
    else
        echo FAILED
        cat "$scratch/said"
        failed=$((failed + 1))
    fi
}

# holds FILE TEXT: the file out or err of the scratch folder has these lines and
# no more; TEXT is a format of printf
holds() {
    # shellcheck disable=SC2059
    printf "$2" | diff - "$scratch/$1"
}

# The last line, and the exit status.
end_checks() {
    echo "$passed passed, $failed failed"
    [ "$failed" -eq 0 ]
}
