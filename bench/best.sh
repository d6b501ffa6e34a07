# For the scripts of bench/, which set `work` to a folder of their own.

# The least processor time, in seconds, of five runs of a program, or of `times` runs. What the last one printed is in $work/out.
best() {
    least=
    for _ in $(seq "${times:-5}"); do
        taken=$( { command time -f %U "$@" >"$work/out"; } 2>&1 | tail -n 1)
        if [ -z "$least" ] || [ "$(echo "$taken < $least" | bc)" = 1 ]; then least=$taken; fi
    done
    echo "$least"
}
