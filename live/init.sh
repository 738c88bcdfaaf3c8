#!/busybox sh
# The first program of the guest: mounts the directory, runs the load and some commands of the shell on it, and turns the
# machine off. Its last line on the console, `guest: ..`, says how it went. The kernel hands its parameters of the form
# NAME=VALUE on as variables: live_options for the mount, live_rounds for the load, and live_leave, where the guest is to go
# without unmounting.
# shellcheck shell=dash
PATH=/bin
/busybox mkdir -p /bin /proc /dev /sys /mnt /plain
/busybox --install -s /bin
mount -t proc proc /proc
mount -t devtmpfs dev /dev

# Some commands, in a folder that is empty. What they print is the same in every folder.
shell_commands() {
    cp /sample copy && cmp /sample copy && sha256sum copy
    dd if=/sample of=copy bs=3000 conv=notrunc 2>/dev/null && cmp /sample copy && echo same
    tail -c 5000 copy | sha256sum
    gzip -c copy | gunzip -c | cmp - /sample && echo same
    printf 'c\nb\n' > text && echo a >> text && sort text && wc -c < text
    sort -o text text && cat text
    : > text && wc -c < text
    ls
    rm copy text && ls
}

say() {
    echo "guest: $1"
    sync
    [ -n "$live_leave" ] || umount /mnt
    poweroff -f
}

depmod
modprobe -q virtio_pci # user-mode Linux has none
modprobe virtiofs || say "the kernel has no virtiofs"
mount -t virtiofs ${live_options:+-o "$live_options"} live /mnt || say "the directory isn't mounted"
echo "mounted: $(grep ' /mnt ' /proc/mounts)"

failed=
head -c 200000 /busybox > /sample
(cd /plain && shell_commands) > /due 2>&1
(cd /mnt && shell_commands) > /found 2>&1
if cmp -s /due /found; then
    echo "shell: $(wc -l < /found) lines, as in a folder of the initial file system"
else
    diff /due /found | sed 's/^/WRONG shell: /'
    failed=1
fi
/load /mnt "${live_rounds:-300}" || failed=1
if [ -n "$failed" ]; then say "something differed"; else say "no byte differed"; fi
