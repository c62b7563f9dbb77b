#!/usr/bin/env bash
# Runs the recipes of docs/LUCK.md ("More than one machine"), the very commands of the page: with GNU parallel, and with a
# Slurm of one node that this script starts on loopback and ends. It is no part of the gate.
#
# It installs Debian's parallel, slurm-wlm and munge where they are missing, and needs root for that and for Slurm's
# daemons. All files stand in a folder of its own. CLOCKBED_PROGRAM names another program than the one that was built here.
set -euo pipefail

top=$(cd "$(dirname "${BASH_SOURCE[0]}")/.." && pwd)
program=$(realpath "${CLOCKBED_PROGRAM:-$top/crates/clockbed/out/clockbed}")
room=$(mktemp -d)
daemons=()
controller_port=16817
node_port=16818

leave() {
  local daemon
  for daemon in "${daemons[@]}"; do
    kill "$daemon" 2> /dev/null || true
  done
  wait
  rm -rf "$room"
}
trap leave EXIT

install_tools() {
  local needed
  for needed in parallel slurmctld slurmd sbatch munged; do
    command -v "$needed" > /dev/null || "$top/tools/need_packages.sh" parallel slurm-wlm munge
  done
}

# The commands of the page's block that this script runs under the name $1.
recipe() {
  PYTHONDONTWRITEBYTECODE=1 python3 - "$top" "$1" << 'END'
import sys
sys.path.insert(0, sys.argv[1] + "/tools")
from page_commands import blocks
page = open(sys.argv[1] + "/docs/LUCK.md", encoding="utf-8").read()
found = [text for _, _, mark, text, _ in blocks(page) if mark and mark[2] == "tools/try_cluster.sh runs it: " + sys.argv[2]]
print(found[0], end="")
END
}

# A folder as the pages' readers have it.
fresh_folder() {
  mkdir "$room/$1"
  cp -R "$top/examples" "$top/tools" "$room/$1"
  cp "$program" "$room/$1/clockbed"
}

run_recipe() {
  (cd "$room/$1" && bash -euo pipefail -c "$(recipe "$2")")
}

compare() {
  "$program" sweep --keys 1..40 < "$top/examples/luck/four.toml" | cmp - "$room/$1/joined.csv"
  echo "$1: $(find "$room/$1/spans" -name '*.csv' | wc -l) spans, joined they are the lines of one run, byte for byte"
}

configure() {
  chmod 755 "$room"
  head -c 1024 /dev/urandom > "$room/munge.key"
  chmod 400 "$room/munge.key"
  mkdir "$room/state" "$room/spool"
  cat > "$room/slurm.conf" << END
ClusterName=try
SlurmctldHost=$(hostname -s)(127.0.0.1)
SlurmctldPort=$controller_port
SlurmdPort=$node_port
SlurmUser=root
SlurmdUser=root
AuthType=auth/munge
AuthInfo=socket=$room/munge.socket
StateSaveLocation=$room/state
SlurmdSpoolDir=$room/spool
SlurmctldPidFile=$room/slurmctld.pid
SlurmdPidFile=$room/slurmd.pid
ProctrackType=proctrack/linuxproc
TaskPlugin=task/none
MpiDefault=none
SelectType=select/cons_tres
SelectTypeParameters=CR_CPU
ReturnToService=2
NodeName=$(hostname -s) NodeAddr=127.0.0.1 CPUs=$(nproc) State=UNKNOWN
PartitionName=try Nodes=ALL Default=YES MaxTime=INFINITE State=UP
END
  export SLURM_CONF=$room/slurm.conf
}

start() {
  "$@" > "$room/${1##*/}.log" 2>&1 &
  daemons+=($!)
}

start_slurm() {
  configure
  start munged --foreground --force --key-file="$room/munge.key" --socket="$room/munge.socket" \
    --pid-file="$room/munged.pid" --seed-file="$room/munge.seed"
  start slurmctld -D -f "$room/slurm.conf"
  start slurmd -D -f "$room/slurm.conf"
  local waited
  for waited in $(seq 60); do
    if sinfo -h -o %T 2> /dev/null | grep -q '^idle'; then
      echo "slurm: one node is idle, version $(sinfo --version | cut -d' ' -f 2)"
      return
    fi
    sleep 1
  done
  tail -n 20 "$room"/*.log >&2
  echo "try_cluster: Slurm didn't come up in $waited seconds" >&2
  exit 1
}

# A program that stops at the keys of task 3 when it is asked the first time, so that the task can be killed.
stop_at_task_3() {
  mv "$room/$1/clockbed" "$room/$1/answering"
  cat > "$room/$1/clockbed" << 'END'
#!/bin/bash
if [[ "$*" = *16..20* ]] && mkdir stopped 2> /dev/null; then
  exec sleep 600
fi
exec ./answering "$@"
END
  chmod 755 "$room/$1/clockbed"
}

kill_task_3() {
  local recipe_job task
  stop_at_task_3 "$1"
  run_recipe "$1" slurm > "$room/log" 2>&1 &
  recipe_job=$!
  until [ -d "$room/$1/stopped" ]; do
    sleep 1
  done
  task=$(squeue -h -r -t RUNNING -o %i | grep '_3$')
  scancel "$task"
  wait "$recipe_job" || true
  echo "$1: task ${task#*_} was killed, $(find "$room/$1/spans" -name '*.csv' | wc -l) spans are there"
  (cd "$room/$1" && ! examples/studies/study.py join spans) 2>&1 | sed "s/^/$1: /"
}

install_tools
fresh_folder parallel
run_recipe parallel parallel
compare parallel
start_slurm
fresh_folder slurm
run_recipe slurm slurm
compare slurm
fresh_folder killed
kill_task_3 killed
run_recipe killed again
compare killed
