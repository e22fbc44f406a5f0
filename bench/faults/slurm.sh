#!/usr/bin/env bash
# Tries cluster/rounds by Slurm on this machine alone: begins a Slurm of one machine in a folder of its own, runs two rounds from a short search of the
# usual week, kills a task of the first one, and looks whether the rounds went on. Ends what it began.
#     bench/faults/slurm.sh [PROGRAMS]
# PROGRAMS is the folder of graft_run, shift_check and shift_solve, bin/ where none is given. It needs Debian's slurm-wlm and munge, and root.
set -euo pipefail
top=$(realpath "$(dirname "$0")/../..")
programs=$(realpath "${1:-$top/bin}")
work=$(mktemp -d)
export SLURM_CONF=$work/slurm.conf

finish() {
    [ -z "${rounds:-}" ] || kill "$rounds" 2> /dev/null || true
    wait
    for one in slurmd slurmctld munged; do
        [ ! -s "$work/$one.pid" ] || kill "$(cat "$work/$one.pid")" 2> /dev/null || true
    done
    # they write into the folder until they have ended
    for one in slurmd slurmctld munged; do
        while [ -s "$work/$one.pid" ] && kill -0 "$(cat "$work/$one.pid")" 2> /dev/null; do sleep 0.2; done
    done
    rm -rf "$work"
}
trap finish EXIT

fail() {
    echo "slurm: $1" >&2
    exit 1
}

await() { # waits up to a minute until a command ends well
    for _ in $(seq 300); do
        ! "$@" > /dev/null 2>&1 || return 0
        sleep 0.2
    done
    fail "$* didn't come true"
}

mkdir "$work/state" "$work/spool"
# munged wants its key and its folder for itself
chmod 755 "$work"
mkdir -m 755 "$work/munge"
head -c 1024 /dev/urandom > "$work/munge/key"
chmod 600 "$work/munge/key"
munged --key-file "$work/munge/key" --socket "$work/munge/socket" --pid-file "$work/munged.pid" --seed-file "$work/munge/seed" --log-file "$work/munge/log" 2> "$work/munge/said" ||
    fail "munged: $(cat "$work/munge/said")"
cat > "$SLURM_CONF" << END
ClusterName=alone
SlurmctldHost=$(hostname)
SlurmctldPort=16817
SlurmdPort=16818
AuthType=auth/munge
AuthInfo=socket=$work/munge/socket
CredType=cred/munge
SlurmUser=root
StateSaveLocation=$work/state
SlurmdSpoolDir=$work/spool
SlurmctldPidFile=$work/slurmctld.pid
SlurmdPidFile=$work/slurmd.pid
SlurmctldLogFile=$work/slurmctld.log
SlurmdLogFile=$work/slurmd.log
ProctrackType=proctrack/linuxproc
TaskPlugin=task/none
SelectType=select/cons_tres
SelectTypeParameters=CR_Core
MpiDefault=none
NodeName=$(hostname) CPUs=$(nproc)
PartitionName=all Nodes=ALL Default=YES
END
slurmctld
slurmd
await sh -c 'sinfo --noheader --format %t | grep -qx idle'

"$programs/shift_solve" solve "$work/journal" --workers 1 --steps 40 < "$top/examples/usual_week.json" > "$work/report" 2> /dev/null || [ $? = 10 ] ||
    fail "no report"
cp "$work/report" "$work/before"
"$top/cluster/rounds" "$top/examples/usual_week.json" "$work/report" --nodes 4 --seconds 5 --rounds 2 --engine slurm --folder "$work" --programs "$programs" \
    > "$work/said" &
rounds=$!
await sh -c 'squeue --noheader --states running --array --format %i | grep _2'
scancel --signal KILL --full "$(squeue --noheader --states running --array --format %i | grep _2)"
wait "$rounds" || fail "rounds ends with $?"
rounds=
cat "$work/said"
grep -q "^round 1: 4 nodes, 3 parts, " "$work/said" || fail "the first round didn't go on without its task"
grep -q "^round 2: 4 nodes, 4 parts, " "$work/said" || fail "the second round wasn't whole"
"$programs/shift_check" check "$top/examples/usual_week.json" "$work/report"
! cmp -s "$work/before" "$work/report" || fail "the report is as it was"
[ -z "$(squeue --noheader)" ] || fail "a task is left"
[ -z "$(ls -d "$work"/round_* 2> /dev/null)" ] || fail "the folder of a round is left"
echo "slurm: both rounds went on"
