#!/bin/sh
# Runs the pieces of tools/pieces.py by the queue Slurm and by GNU parallel over ssh, breaks what can break, and sees that all is made good.
#   tests/queue.sh            takes some six minutes: waits until Slurm has begun the lost tasks again by itself
#   tests/queue.sh --quick    takes one to five, by how busy the machine is: what Slurm has requeued is cancelled and sent again
# It starts a Slurm of two nodes (munged, slurmctld, two slurmd) and an sshd in a folder of its own, on free ports, and ends them. Debian:
# apt-get install --no-install-recommends slurmctld slurmd slurm-client munge parallel openssh-server; a part whose packages are missing is
# passed over with a line. The program is a stand-in that waits and answers.
set -u

PATH=$PATH:/usr/sbin:/sbin
cd "$(dirname -- "$0")/.." || exit 1
quick=no
[ "${1-}" != --quick ] || quick=yes
top=$(mktemp -d "${TMPDIR:-/tmp}/queue.XXXXXX") || exit 1
chmod 755 "$top"
failed=0

say() {
    echo "queue.sh: $*"
}

# Says whether a thing holds, which is told by its name; the rest is a command.
holds() {
    what=$1
    shift
    if "$@"; then
        say "ok: $what"
    else
        say "FAILED: $what"
        failed=1
    fi
}

# Calls a command again until it succeeds, for so many seconds.
within() {
    seconds=$1
    shift
    until "$@"; do
        seconds=$((seconds - 1))
        [ "$seconds" -gt 0 ] || return 1
        sleep 1
    done
}

# Ends the process of a pid file, which this script has started.
end_of() {
    [ -s "$1" ] || return 0
    pid=$(cat "$1")
    kill "$pid" 2>/dev/null || return 0
    for _ in 1 2 3 4 5 6 7 8 9 10; do
        kill -0 "$pid" 2>/dev/null || return 0
        sleep 0.5
    done
    kill -9 "$pid" 2>/dev/null
}

finish() {
    trap '' INT TERM HUP
    if [ -f "$top/slurm.conf" ]; then
        SLURM_CONF="$top/slurm.conf" scancel --user="$(id -un)" 2>/dev/null && sleep 2
        for file in "$top"/run/slurmd.*.pid "$top/run/slurmctld.pid" "$top/run/munged.pid"; do end_of "$file"; done
    fi
    end_of "$top/ssh/sshd.pid"
    [ "$failed" -eq 0 ] || { say "what it left is in $top"; return; }
    rm -rf "$top"
}
trap finish EXIT
trap 'failed=1; exit 130' INT TERM HUP

# ---- what is run

# Waits for so many seconds as '# wait N' says, and answers what '# answer' does. Each call is noted.
cat > "$top/knot" <<'END'
#!/bin/sh
said=
while IFS= read -r line; do
    case $line in
        '# wait '*) sleep "${line#'# wait '}" ;;
        '# answer '*) said=${line#'# answer '} ;;
    esac
done
[ -n "$said" ] || { echo malformed line 1; exit 3; }
echo "$said" >> "${0%/*}/calls"
echo "numbers $said"
END
chmod +x "$top/knot"
export KNOT="$top/knot"

# Cuts a table of so many lines, each of so many seconds, into a run with pieces of five lines, and makes the answers that are due of it.
cut_run() {
    seq "$2" | sed "s|.*|k&	# wait $3 / # answer &|" > "$top/table.txt"
    seq "$2" | sed 's|.*|k&	0	numbers &|' > "$top/due.txt"
    tools/pieces.py cut "$top/table.txt" "$1" --each 5 --job numbers
    : > "$top/calls"
}

# Whether nothing is left of a run, and its answers are those that are due.
is_right() {
    tools/pieces.py left --sums "$1" && tools/pieces.py join "$1" > "$top/joined.txt" && cmp -s "$top/joined.txt" "$top/due.txt"
}

nothing_half_written() {
    [ -z "$(find "$1/answers" -name '*.part')" ]
}

calls_are_at_most() {
    [ "$(wc -l < "$top/calls")" -le "$1" ]
}

# ---- Slurm

free_ports() {
    python3 -c 'import socket
kept = [socket.socket() for _ in range(3)]
for one in kept:
    one.bind(("127.0.0.1", 0))
print(*(one.getsockname()[1] for one in kept))'
}

start_node() {
    slurmd -N "$1" -f "$top/slurm.conf"
}

idle_nodes() {
    [ "$(sinfo -h -N -o %T 2>/dev/null | grep -c -E '^(idle|mixed|allocated)$')" -eq "$1" ]
}

start_slurm() {
    me=$(id -un) host=$(hostname -s)
    set -- $(free_ports)
    mkdir -p "$top/run/spool.n1" "$top/run/spool.n2" "$top/state" "$top/log" "$top/munge"
    chmod 700 "$top/munge"
    (umask 077; head -c 128 /dev/urandom > "$top/munge/key")
    # The folder above may be one that others can write, as /tmp.
    munged --force --key-file="$top/munge/key" --socket="$top/run/munge.socket" --pid-file="$top/run/munged.pid" \
        --log-file="$top/log/munged.log" --seed-file="$top/munge/seed" 2>> "$top/log/munged.start" || return 1
    cat > "$top/slurm.conf" <<END
ClusterName=here
SlurmctldHost=$host(127.0.0.1)
SlurmctldPort=$1
SlurmUser=$me
SlurmdUser=$me
AuthType=auth/munge
AuthInfo=socket=$top/run/munge.socket
CredType=cred/munge
StateSaveLocation=$top/state
SlurmctldPidFile=$top/run/slurmctld.pid
SlurmctldLogFile=$top/log/slurmctld.log
SlurmdPidFile=$top/run/slurmd.%n.pid
SlurmdLogFile=$top/log/slurmd.%n.log
SlurmdSpoolDir=$top/run/spool.%n
SlurmdParameters=config_overrides
ProctrackType=proctrack/linuxproc
TaskPlugin=task/none
JobAcctGatherType=jobacct_gather/none
AccountingStorageType=accounting_storage/none
JobCompType=jobcomp/filetxt
JobCompLoc=$top/log/jobs.txt
SelectType=select/cons_tres
SelectTypeParameters=CR_CPU
SchedulerType=sched/backfill
SchedulerParameters=sched_interval=2,bf_interval=2,batch_sched_delay=0,sched_min_interval=0
MpiDefault=none
SwitchType=switch/none
ReturnToService=2
KillWait=5
MinJobAge=86400
SlurmdTimeout=20
InactiveLimit=0
NodeName=n1 NodeHostname=$host NodeAddr=127.0.0.1 Port=$2 CPUs=3 RealMemory=4000 State=UNKNOWN
NodeName=n2 NodeHostname=$host NodeAddr=127.0.0.1 Port=$3 CPUs=3 RealMemory=4000 State=UNKNOWN
PartitionName=all Nodes=n1,n2 Default=YES MaxTime=INFINITE DefMemPerCPU=500 State=UP OverSubscribe=NO
END
    export SLURM_CONF="$top/slurm.conf"
    slurmctld -f "$top/slurm.conf" && start_node n1 && start_node n2 && within 60 idle_nodes 2
}

submit() {
    array=$(tools/pieces.py left "$1")
    job=$(sbatch --parsable --output="$top/log/pieces-%A-%a.log" --array="$array%6" examples/pieces/array-job.sh "$1")
    say "array $array is job $job"
}

no_tasks() {
    [ -z "$(squeue -h)" ]
}

running_tasks() {
    [ "$(squeue -h -t R -r | wc -l)" -ge "$1" ]
}

# The processes of tasks of this Slurm in which a variable has this value, as SLURMD_NODENAME=n2.
processes_with() {
    for folder in /proc/[0-9]*; do
        shown=$( (tr '\0' '\n' < "$folder/environ") 2>/dev/null) || continue
        case "
$shown
" in
            *"
SLURM_CONF=$top/slurm.conf
"*) ;;
            *) continue ;;
        esac
        for pair; do
            printf '%s\n' "$shown" | grep -q -x -F "$pair" || continue 2
        done
        printf '%s\n' "${folder#/proc/}"
    done
}

# The script of a task: of its processes the one that the step daemon has begun.
script_of() {
    for pid in $(processes_with "SLURM_ARRAY_TASK_ID=$1" "SLURM_ARRAY_JOB_ID=$job"); do
        parent=$(sed -n 's/^PPid:[[:space:]]*//p' "/proc/$pid/status" 2>/dev/null)
        case "$(cat "/proc/$parent/comm" 2>/dev/null)" in slurmstepd*) echo "$pid $parent" ;; esac
    done
}

# Kills slurmd, the step daemons and all processes of a node at once, as where its power fails.
cut_off() {
    lost=$(processes_with "SLURMD_NODENAME=$1")
    daemons=
    for task in $(squeue -h -r -t R -w "$1" -o %K); do
        set -- "$1" $(script_of "$task")
        daemons="$daemons ${3-}"
    done
    kill -9 "$(cat "$top/run/slurmd.$1.pid")"
    # What was killed in between is gone already.
    kill -9 $daemons $lost 2>/dev/null
    rm -f "$top/run/slurmd.$1.pid"
}

is_down() {
    [ "$(sinfo -h -n "$1" -o %t | tr -d '*')" = down ]
}

task_state_is() {
    [ "$(squeue -h -r -j "${job}_$1" -o %T 2>/dev/null)" = "$2" ]
}

slurm() {
    for name in munged slurmctld slurmd sbatch; do
        command -v "$name" > /dev/null || { say "skipped: Slurm's part, since $name is missing"; return; }
    done
    holds 'a Slurm of two nodes starts' start_slurm
    [ "$failed" -eq 0 ] || return
    cut_run "$top/run-slurm" 60 1.5
    submit "$top/run-slurm"
    holds 'six tasks run' within 60 running_tasks 6
    # Tasks of the first node: one is cancelled, the script of one is killed, and one is requeued; then the second node is lost.
    set -- $(squeue -h -r -t R -w n1 -o %K | sort -n)
    say "of node n1 task $1 is cancelled, that of $2 is killed by -9, and $3 is requeued"
    scancel "${job}_$1"
    kill -9 $(script_of "$2" | cut -d ' ' -f 1)
    scontrol requeue "${job}_$3"
    say "node n2 is cut off, with the tasks $(squeue -h -r -t R -w n2 -o %K | sort -n | tr '\n' ' ')"
    cut_off n2
    holds 'the lost node is seen' within 120 is_down n2
    start_node n2
    holds 'the node comes back' within 60 idle_nodes 2
    if [ $quick = yes ]; then
        # Slurm holds what it has requeued for two minutes.
        within 60 all_held
        scancel "$job"
        within 30 no_tasks
    else
        holds 'what was requeued and lost is begun again and ends' within 400 no_tasks
        holds 'the cancelled and the killed are left' left_is "$top/run-slurm" "$1 $2"
    fi
    holds 'a part of it is left' pieces_left "$top/run-slurm"
    submit "$top/run-slurm"
    holds 'the tasks of what was left end' within 120 no_tasks
    holds 'all is made good by what was left' is_right "$top/run-slurm"
    holds 'nothing is half written' nothing_half_written "$top/run-slurm"
    say "$(wc -l < "$top/calls") calls were made for 60 lines"
    # The six pieces in hand, of five lines each, were begun anew.
    holds 'no more than the pieces in hand were asked again' calls_are_at_most 90
}

# Whether no task runs and those that were requeued wait.
all_held() {
    [ "$(squeue -h -r -t R | wc -l)" -eq 0 ]
}

left_is() {
    [ "$(tools/pieces.py left --lines "$1" | tr '\n' ' ')" = "$2 " ]
}

pieces_left() {
    left=$(tools/pieces.py left "$1")
    say "left: $left"
    [ -n "$left" ]
}

# ---- GNU parallel over ssh

start_sshd() {
    ssh=$top/ssh
    mkdir -p "$ssh" && chmod 700 "$ssh"
    [ "$(id -u)" -ne 0 ] || mkdir -p /run/sshd
    set -- $(free_ports)
    for key in hostkey id; do ssh-keygen -q -t ed25519 -N '' -f "$ssh/$key" || return 1; done
    cp "$ssh/id.pub" "$ssh/authorized_keys"
    printf '%s\n' "Port $1" 'ListenAddress 127.0.0.1' 'ListenAddress 127.0.0.2' "HostKey $ssh/hostkey" "PidFile $ssh/sshd.pid" \
        "AuthorizedKeysFile $ssh/authorized_keys" 'PasswordAuthentication no' 'UsePAM no' 'StrictModes no' 'MaxStartups 100' > "$ssh/sshd_config"
    printf '%s\n' 'Host one' ' HostName 127.0.0.1' 'Host two' ' HostName 127.0.0.2' 'Host dead' ' HostName 127.0.0.3' 'Host *' " Port $1" \
        " IdentityFile $ssh/id" " UserKnownHostsFile $ssh/known_hosts" ' StrictHostKeyChecking accept-new' ' BatchMode yes' > "$ssh/config"
    printf '#!/bin/sh\nexec ssh -F %s/config "$@"\n' "$ssh" > "$ssh/ssh"
    chmod +x "$ssh/ssh"
    "$(command -v sshd)" -f "$ssh/sshd_config" -E "$ssh/sshd.log" || return 1
    within 20 "$ssh/ssh" one true && "$ssh/ssh" two true
}

by_parallel() {
    PARALLEL_SSH="$ssh/ssh" examples/pieces/parallel-job.sh "$@" 2> "$top/parallel.err"
}

both_hosts_worked() {
    cut -f 2 "$1/parallel.log" | sort -u | tr '\n' ' ' | grep -q 'one.*two'
}

parallel_over_ssh() {
    for name in sshd ssh ssh-keygen parallel; do
        command -v "$name" > /dev/null || { say "skipped: the part of GNU parallel over ssh, since $name is missing"; return; }
    done
    parallel --version < /dev/null 2>/dev/null | grep -q '^GNU parallel' || {
        say 'skipped: the part of GNU parallel over ssh, since parallel is another program'
        return
    }
    holds 'two hosts can be logged into' start_sshd
    [ "$failed" -eq 0 ] || return
    printf '3/one\n3/two\n' > "$top/hosts.txt"
    printf '3/one\n3/dead\n' > "$top/hosts-dead.txt"
    cut_run "$top/run-here" 30 0
    holds 'GNU parallel on this machine answers all' by_parallel "$top/run-here"
    holds 'the answers are right' is_right "$top/run-here"
    cut_run "$top/run-hosts" 30 0.2
    holds 'two hosts answer all' by_parallel "$top/run-hosts" "$top/hosts.txt"
    holds 'both had pieces' both_hosts_worked "$top/run-hosts"
    holds 'the answers are right' is_right "$top/run-hosts"
    cut_run "$top/run-dead" 30 0.2
    holds 'with a dead host the other one answers all' by_parallel "$top/run-dead" "$top/hosts-dead.txt"
    holds 'the answers are right' is_right "$top/run-dead"
    holds 'nothing is half written' nothing_half_written "$top/run-dead"
}

parallel_over_ssh
slurm
[ "$failed" -eq 0 ] && say 'all as it should be'
exit "$failed"
