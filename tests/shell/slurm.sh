# Sourced by tests/shell/parts.sh after tests/shell/hosts.sh: starts Slurm with three nodes in one more network namespace of this machine.
# `batch COMMAND..` runs a command there. If it cannot be started, $why says so.
why=
for tool in munged slurmctld slurmd sbatch scancel sinfo; do command -v $tool > /dev/null || why="$tool is not installed"; done

batch() { ip netns exec ${net}slurm "$@"; }

start_slurm() {
    local slurm=$fresh/slurm name
    name=$(hostname)
    ip netns add ${net}slurm && ip -n ${net}slurm link set lo up
    # Slurm looks for an address beside that of lo.
    ip -n ${net}slurm link add own type bridge && ip -n ${net}slurm addr add 10.78.0.1/24 dev own && ip -n ${net}slurm link set own up
    mkdir -p "$slurm/state" "$slurm/log"
    cat > "$slurm/slurm.conf" <<END
ClusterName=parts
SlurmctldHost=$name(10.78.0.1)
SlurmUser=root
AuthType=auth/munge
AuthInfo=socket=$slurm/munge.socket
CredType=cred/munge
ProctrackType=proctrack/linuxproc
TaskPlugin=task/none
MpiDefault=none
SchedulerType=sched/builtin
SelectType=select/cons_tres
SelectTypeParameters=CR_Core
ReturnToService=2
StateSaveLocation=$slurm/state
SlurmdSpoolDir=$slurm/spool.%n
SlurmctldPidFile=$slurm/slurmctld.pid
SlurmdPidFile=$slurm/slurmd.%n.pid
SlurmctldPort=16817
SlurmdParameters=config_overrides
NodeName=alpha NodeHostname=$name NodeAddr=10.78.0.1 Port=17001 CPUs=2 State=UNKNOWN
NodeName=beta NodeHostname=$name NodeAddr=10.78.0.1 Port=17002 CPUs=2 State=UNKNOWN
NodeName=gamma NodeHostname=$name NodeAddr=10.78.0.1 Port=17003 CPUs=2 State=UNKNOWN
PartitionName=all Nodes=alpha,beta,gamma Default=YES MaxTime=INFINITE State=UP
END
    printf '%s\n' CgroupPlugin=cgroup/v1 IgnoreSystemd=yes > "$slurm/cgroup.conf"
    export SLURM_CONF=$slurm/slurm.conf
    head -c 1024 /dev/urandom > "$slurm/munge.key"
    chmod 600 "$slurm/munge.key"
    batch munged --force --foreground --socket="$slurm/munge.socket" --key-file="$slurm/munge.key" --pid-file="$slurm/munge.pid" \
        --seed-file="$slurm/munge.seed" --log-file="$slurm/log/munge" > "$slurm/log/munge.out" 2>&1 & disown
    for _ in $(seq 50); do [ -S "$slurm/munge.socket" ] && break; sleep .1; done
    batch slurmctld -D -f "$slurm/slurm.conf" > "$slurm/log/slurmctld" 2>&1 & disown
    for node in $hosts; do
        mkdir "$slurm/spool.$node"
        batch slurmd -D -N $node -f "$slurm/slurm.conf" > "$slurm/log/$node" 2>&1 & disown
    done
    for _ in $(seq 100); do
        batch sinfo -h -o '%T %D' 2> /dev/null | grep -q '^idle 3' && return
        sleep .2
    done
    why="it does not start: $(tail -n 1 "$slurm/log/slurmctld")"
}
[ -n "$why" ] || start_slurm
