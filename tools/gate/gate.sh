#!/bin/sh
# The gate: `rt ci`, and then two tries of the programs that it built: each growth of memory is refused once,
# and rough use in its quick form. At its end it prints where the processor minutes of `rt ci` went, those of
# all that, and the last line of `rt ci` again. The status is 0 if all is well. `rt ci` makes a check for each
# processor at a time, four at most, each with one job: several jobs for one check take more processor time in
# all, and a check takes up to five GB.
# usage: tools/gate/gate.sh
set -eu
cd "$(dirname "$0")/../.."

# How many processors there are to use, by the quota of the control group too.
processors() {
  found=$(nproc)
  if [ -r /sys/fs/cgroup/cpu.max ]; then
    read -r quota period < /sys/fs/cgroup/cpu.max
    if [ "$quota" != max ] && [ $((quota / period)) -lt "$found" ]; then found=$((quota / period)); fi
  fi
  echo $((found < 1 ? 1 : found > 4 ? 4 : found))
}

RT_JOBS=${RT_JOBS:-$(processors)}
export RT_JOBS
folder=$(mktemp -d)
trap 'rm -rf "$folder"' EXIT
{
  status=0
  tools/gate/minutes.py "$folder/minutes" rt ci || status=$?
  echo "$status" > "$folder/status"
} | tee "$folder/printed"
status=$(cat "$folder/status")
if [ "$status" = 0 ]; then
  tools/try.py growths || status=1
  tools/try.py --quick || status=1
fi
cat "$folder/minutes"
times > "$folder/times"
tr 'ms' '  ' < "$folder/times" | awk 'NR == 2 { printf "gate: %d processor minutes\n", $1 + $3 + ($2 + $4) / 60 + 0.5 }'
tail -n 1 "$folder/printed"
exit "$status"
