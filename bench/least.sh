# shellcheck shell=bash
# Sourced by the benchmarks.

# The least time of a command in so many runs, in microseconds. After a run of over two seconds no other is made.
# What the command prints goes to the file `lines_to`.
lines_to=/dev/null
least() {
  local times=$1
  shift
  for _ in $(seq "$times"); do
    local from to
    from=$(date +%s%N); "$@" >"$lines_to" 2>/dev/null || true; to=$(date +%s%N)
    echo $(((to - from) / 1000))
    [ $((to - from)) -lt 2000000000 ] || break
  done | sort -n | head -n 1
}
