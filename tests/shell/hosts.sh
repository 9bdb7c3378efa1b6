# Sourced by tests/shell/parts.sh: makes a network namespace for each of $hosts, with an ssh server, processes, /root and /srv of its
# own, and one for the machine that asks. `ask COMMAND..` runs a command on the latter, `at HOST COMMAND..` on a host.
# The file $fresh/config has the settings of ssh, and $fresh/kept has them with connections that are kept.
net=p$$

finish() {
    trap - EXIT
    for host in $hosts head slurm; do
        for pid in $(ip netns pids $net$host 2> /dev/null); do kill -9 $pid 2> /dev/null; done
        ip netns del $net$host 2> /dev/null
    done
    wait 2> /dev/null
    rm -rf "$fresh"
}
trap finish EXIT
trap 'exit 130' INT TERM HUP

# start HOST
start() {
    ip netns exec $net$1 unshare --mount --uts --pid --fork --kill-child sh -c '
        fresh=$1 name=$2
        mount -t proc proc /proc
        hostname "$name"
        mount --bind "$fresh/$name/root" /root
        mount --bind "$fresh/$name/srv" /srv
        mount --bind "$fresh/bin" /usr/local/bin
        mount --bind "$fresh/passwd" /etc/passwd
        mount -t tmpfs tmpfs /run
        mkdir -p /run/sshd
        [ "$name" != gamma ] || mount -t tmpfs -o size=1m tmpfs /srv/parts     # a small disk
        exec /usr/sbin/sshd -D -e -f "$fresh/$name/sshd_config"' sh "$fresh" "$1" > "$fresh/$1/log" 2>&1 &
    disown      # the shell says nothing when it is killed
}
ask() { ip netns exec ${net}head "$@"; }
at() { local host=$1; shift; ask ssh -n -F "$fresh/config" $host "$@"; }
up() { at $1 true 2> /dev/null; }

ip netns add ${net}head
ip -n ${net}head link set lo up
ip -n ${net}head link add br0 type bridge
ip -n ${net}head addr add 10.77.0.1/24 dev br0
ip -n ${net}head link set br0 up
ssh-keygen -q -t ed25519 -N '' -f "$fresh/key"
cat > "$fresh/config" <<END
Host *
  User root
  IdentityFile $fresh/key
  IdentitiesOnly yes
  UserKnownHostsFile $fresh/known
  StrictHostKeyChecking accept-new
  LogLevel ERROR
  BatchMode yes
  ConnectTimeout 3
  ServerAliveInterval 2
  ServerAliveCountMax 2
END
printf '%s\n' root:x:0:0:root:/root:/bin/sh sshd:x:101:65534::/run/sshd:/usr/sbin/nologin > "$fresh/passwd"
number=10
for host in $hosts; do
    number=$((number + 1))
    mkdir -p "$fresh/$host/root/.ssh"
    chmod 700 "$fresh/$host/root" "$fresh/$host/root/.ssh"
    cp "$fresh/key.pub" "$fresh/$host/root/.ssh/authorized_keys"
    ssh-keygen -q -t ed25519 -N '' -f "$fresh/$host/key"
    cat > "$fresh/$host/sshd_config" <<END
Port 22
HostKey $fresh/$host/key
AuthorizedKeysFile /root/.ssh/authorized_keys
PermitRootLogin prohibit-password
PasswordAuthentication no
UsePAM no
PidFile none
MaxStartups 50
SetEnv CSPARTS=/srv/parts
END
    printf 'Host %s\n  HostName 10.77.0.%d\n' $host $number >> "$fresh/config"
    ip netns add $net$host
    ip -n $net$host link set lo up
    ip -n ${net}head link add v$number type veth peer name eth0 netns $net$host
    ip -n ${net}head link set v$number master br0 up
    ip -n $net$host addr add 10.77.0.$number/24 dev eth0
    ip -n $net$host link set eth0 up
    eval "link_$host=v$number"
    start $host
done
{ cat "$fresh/config"; printf 'Host *\n  ControlMaster auto\n  ControlPersist 60\n  ControlPath %s/%%C\n' "$fresh"; } > "$fresh/kept"
export CSPARTS_SSH="ssh -n -F $fresh/kept"
for host in $hosts; do
    for _ in $(seq 100); do up $host && break; sleep .1; done
    up $host || { tail -n 5 "$fresh/$host/log"; bad "$host does not answer"; }
done
