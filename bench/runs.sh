# What the benches over jobs share. They are read into this: it makes the folder `work`, and proves and builds the program where that
# has to be done, so that a bench measures the program, and no trial.
root=$(cd "$(dirname "$0")/.." && pwd)
program=$root/out/sgxpage
work=$(mktemp -d)
trap 'rm -r "$work"' EXIT
"$root/sgxpage" --prove

# Runs the job.
run_job() {
    "$program" run "$work/trace" < "$work/job" > "$work/out"
}

# The nanoseconds that a command takes: the least of five times.
least_of_five() {
    least=
    for _ in 1 2 3 4 5; do
        start=$(date +%s%N)
        "$@"
        took=$(($(date +%s%N) - start))
        if [ -z "$least" ] || [ "$took" -lt "$least" ]; then
            least=$took
        fi
    done
    echo "$least"
}
