#!/bin/sh
# Boots a real Linux that mounts a directory from our proved daemon, and checks each byte that it reads there.
#
#     live/linux.sh [OPTION...] KERNEL.deb [DEVICE...]
#
# KERNEL.deb is a Debian package: a kernel (linux-image-6..), which runs in QEMU, or user-mode-linux, which is a process like
# any other, and needs neither QEMU nor KVM. It is taken apart, and nothing of it is installed. DEVICE is a command that speaks
# the chain stream, `./daxwire serve` where none is given.
#
#     --dax             the guest mounts with dax=always; --qemu names a QEMU that has the window (live/README.md)
#     --qemu PROGRAM    the QEMU, qemu-system-x86_64 where none is given
#     --processors N    of the guest in QEMU, 2 where none are given
#     --queues N        request queues in QEMU, 1 where none are given
#     --rounds N        of the load's random parts, 300 where none are given
#     --leave           the guest goes without unmounting
#     --record PREFIX   keeps what went through as PREFIX.stream and PREFIX.answers
#     --folder FOLDER   works there, and leaves all; else it works in a temporary folder and removes it
#     --seconds N       how long the guest may take, 900 where nothing is said
#
# The status is 0 where no byte differed, the device ended well, and, of our daemon, the recording gives the same answers when it
# is served again. Else it is 1, behind a line that says what differed.
#
# Debian packages: busybox-static cpio xz-utils gcc libc6-dev, and qemu-system-x86 where it is to run in QEMU.
set -u
here=$(CDPATH='' cd -- "$(dirname -- "$0")" && pwd -P) || exit 1
top=$(dirname -- "$here")
qemu=qemu-system-x86_64 processors=2 queues=1 rounds=300 seconds=900 dax='' leave='' record='' folder=''

say() { echo "linux.sh: $1" >&2; }
stop() {
    say "$1"
    exit 1
}
usage() {
    sed -n 's/^#  *\(live.linux.sh\)/usage: \1/p' "$0" >&2
    exit 2
}
path_of() {
    case $1 in /*) echo "$1" ;; *) echo "$PWD/$1" ;; esac
}

while [ $# -gt 0 ]; do
    case $1 in
    --dax) dax=1 ;;
    --leave) leave=1 ;;
    --qemu | --processors | --queues | --rounds | --seconds | --record | --folder)
        [ $# -ge 2 ] || usage
        case $1 in
        --qemu) qemu=$2 ;;
        --processors) processors=$2 ;;
        --queues) queues=$2 ;;
        --rounds) rounds=$2 ;;
        --seconds) seconds=$2 ;;
        --record) record=$(path_of "$2") ;;
        --folder) folder=$(path_of "$2") ;;
        esac
        shift
        ;;
    -*) usage ;;
    *) break ;;
    esac
    shift
done
[ $# -ge 1 ] || usage
package=$1
shift

# ---- What it needs ----

need() {
    command -v "$1" >/dev/null || stop "no $1: apt-get install $2"
}
need dpkg-deb dpkg
need busybox busybox-static
need cpio cpio
need xz xz-utils
need cc 'gcc libc6-dev'
[ -f "$package" ] || stop "no package $package: 'apt-cache depends linux-image-amd64' names one, and 'apt-get download' fetches it"
ours=
if [ $# -eq 0 ]; then
    ours=1
    set -- "$top/daxwire" serve
    "$top/daxwire" show </dev/null >/dev/null # where it isn't built, it is proved and built first
fi

# ---- The folder, and what is to end with this script ----

machine='' bridge='' temporary='' group=''
# shellcheck disable=SC2317,SC2086  # the trap calls it; there may be no group
clear_up() {
    [ -z "$machine" ] || kill -KILL "$machine" $group 2>/dev/null
    [ -z "$bridge" ] || kill "$bridge" 2>/dev/null
    wait
    [ -z "$temporary" ] || rm -rf "$temporary"
}
trap clear_up EXIT
trap 'exit 1' INT TERM HUP
if [ -n "$folder" ]; then
    mkdir -p "$folder" || exit 1
else
    temporary=$(mktemp -d) || exit 1
    folder=$temporary
fi
[ -n "$record" ] || record=$folder/record

# ---- The kernel, and its initial file system ----

# Takes the kernel and the modules of virtio-fs out of the package. Not each package has all of these, of which tar complains.
take_apart() {
    rm -rf "$folder/kernel" "$folder/initial"
    mkdir -p "$folder/kernel" "$folder/initial/dev"
    dpkg-deb --fsys-tarfile "$package" | tar -x -C "$folder/kernel" --wildcards './boot/vmlinuz-*' './usr/bin/linux.uml' \
        '*/modules.builtin' '*/drivers/virtio/*.ko*' '*/fs/fuse/*.ko*' 2> "$folder/tar.log"
    kernel=$(find "$folder/kernel" -name 'vmlinuz-*' -o -name linux.uml)
    [ -f "$kernel" ] || stop "$package has no kernel"
    version=$(basename "$(dirname "$(find "$folder/kernel" -name modules.builtin)")")
}

# The guest finds out which module needs which.
take_modules() {
    modules=$folder/initial/lib/modules/$version
    mkdir -p "$modules"
    find "$folder/kernel" -name modules.builtin -o -name '*.ko' -o -name '*.ko.xz' | while read -r found; do
        case $found in
        *.xz) xz -dc "$found" > "$modules/$(basename "$found" .xz)" ;;
        *) cp "$found" "$modules/" ;;
        esac
    done
}

take_apart
take_modules
cp "$(command -v busybox)" "$folder/initial/busybox"
cp "$here/init.sh" "$folder/initial/init"
chmod 755 "$folder/initial/init"
cc -O2 -static -o "$folder/initial/load" "$here/load.c" || stop "the load isn't compiled"
cc -O2 -o "$folder/bridge" "$here/bridge.c" || stop "the bridge isn't compiled"
(cd "$folder/initial" && find . | cpio --quiet -o -H newc | gzip -1) > "$folder/initial.gz" || stop "no initial file system is made"

# ---- The bridge ----

words="quiet panic=-1 live_rounds=$rounds"
[ -z "$leave" ] || words="$words live_leave=1"
rm -f "$folder/socket" "$folder/console" "$folder/window"
if [ -n "$dax" ]; then
    words="$words live_options=dax=always"
    truncate -s 16M "$folder/window" || stop "no window is made"
    set -- --window "$folder/window" "$folder/socket" "$@"
else
    set -- "$folder/socket" "$@"
fi
case $kernel in
*/linux.uml) set -- --tag live "$@" ;;
esac
"$folder/bridge" --record "$record" "$@" 2> "$folder/bridge.log" &
bridge=$!
for _ in 1 2 3 4 5 6 7 8 9 10; do
    [ -S "$folder/socket" ] || sleep 1
done
[ -S "$folder/socket" ] || stop "the bridge doesn't listen: $(cat "$folder/bridge.log")"

# ---- The machine ----

# Linux as a process; what it writes on its console is its standard output.
start_user_mode() {
    [ -z "$dax" ] || stop "user-mode Linux has no DAX window"
    say "user-mode Linux $version"
    # shellcheck disable=SC2086  # the kernel's parameters
    "$kernel" mem=256M uml_dir="$folder" umid=uml initrd="$folder/initial.gz" \
        virtio_uml.device="$folder/socket:26" con=null con0=null,fd:1 ssl=null $words > "$folder/console" 2>&1 </dev/null &
    machine=$!
    group=-$machine # it is the leader of one, of its guest's processes
}

# A /dev/kvm may be there where the processor offers no virtualization; a kernel doesn't start in it then.
accelerator() {
    if [ -w /dev/kvm ] && grep -qwE 'vmx|svm' /proc/cpuinfo; then echo kvm; else echo tcg; fi
}

start_qemu() {
    need "$qemu" qemu-system-x86
    device=vhost-user-fs-pci,chardev=bridge,tag=live,num-request-queues=$queues
    if [ -n "$dax" ]; then
        "$qemu" -device vhost-user-fs-pci,help 2>&1 | grep -q cache-path || stop "$qemu has no DAX window: live/README.md builds one that has it"
        device=$device,cache-size=16M,cache-path=$folder/window
    fi
    say "Linux $version in $("$qemu" --version | head -n 1) by $(accelerator), $processors processors, $queues queues, DAX: ${dax:-0}"
    "$qemu" -nodefaults -no-reboot -display none -serial "file:$folder/console" -L /usr/share/qemu -L /usr/share/seabios \
        -machine q35,memory-backend=memory -accel "$(accelerator)" -cpu max -smp "$processors" -m 512 \
        -object memory-backend-memfd,id=memory,size=512M,share=on \
        -chardev "socket,id=bridge,path=$folder/socket" -device "$device" \
        -kernel "$kernel" -initrd "$folder/initial.gz" -append "console=ttyS0 no_timer_check $words" > "$folder/machine.log" 2>&1 &
    machine=$!
}

: > "$folder/machine.log"
began=$(date +%s)
case $kernel in
*/linux.uml) start_user_mode ;;
*) start_qemu ;;
esac

# Waits until the machine is off, and stops it where it takes too long or the bridge has ended.
while kill -0 "$machine" 2>/dev/null; do
    if ! kill -0 "$bridge" 2>/dev/null; then
        sleep 2
        kill -0 "$machine" 2>/dev/null || break
        stop "the bridge has ended while the guest ran: $(cat "$folder/bridge.log")"
    fi
    if [ $(($(date +%s) - began)) -gt "$seconds" ]; then
        tail -n 20 "$folder/console" >&2
        stop "the guest runs for more than $seconds seconds; above is the end of its console"
    fi
    sleep 1
done
took=$(($(date +%s) - began))
wait "$machine" || stop "the machine has failed: $(cat "$folder/machine.log"; tail -n 5 "$folder/console")"
machine=
wait "$bridge" || stop "the bridge has failed: $(cat "$folder/bridge.log")"
bridge=

# ---- What became of it ----

tr -d '\r' < "$folder/console" | grep -v '^ *$' > "$folder/lines"
cat "$folder/lines"
cat "$folder/bridge.log" >&2
say "$took seconds, $(wc -c < "$record.stream") bytes of stream, $(wc -c < "$record.answers") bytes of answers"
if [ -n "$ours" ]; then
    "$top/daxwire" serve < "$record.stream" | cmp - "$record.answers" || stop "served again, the recording gives other answers"
    say "served again, the recording gives the same answers"
fi
! grep -q '^WRONG' "$folder/lines" || stop "$(grep '^WRONG' "$folder/lines" | head -n 1)"
grep -q '^guest: no byte differed$' "$folder/lines" || stop "the guest didn't come to its end: $(tail -n 1 "$folder/lines")"
say "no byte differed"
