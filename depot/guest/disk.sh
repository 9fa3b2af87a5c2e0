# The disk that the kernel makes of what was plugged in, or the disks: one for each unit (document 02, A7).

DISKS=1 # that are expected

# plug MEDIUM NUMBER VENDOR PRODUCT RELEASE: plugs it in and waits for the disks; sets `disk` (sda) and `sg` (sg0), the first's.
plug() {
    dmesg -c >/dev/null
    ask "plug $*"
    if [ "$1" = same ]; then mark "plugged in again: a new device over the same medium"; else mark "plugged in: medium $1, number $2"; fi
    check "disk-appears" appears || {
        unplug
        return 1
    }
    mark "enumerated: /dev/$disk"
}

appears() {
    waited=0
    until [ "$(dmesg | grep -c 'Attached SCSI removable disk')" -ge $DISKS ]; do
        sleep 0.1
        waited=$((waited + 1))
        if [ $waited -gt 150 ]; then
            echo "$(dmesg | grep -c 'Attached SCSI removable disk') of $DISKS disks after 15 seconds"
            return 1
        fi
    done
    dmesg >/tmp/kernel
    disk=$(ls /sys/block | grep '^sd' | head -n 1)
    sg=$(ls /sys/class/scsi_generic | head -n 1)
    usb=$(readlink -f "/sys/block/$disk/device/../../../..")
    echo "$disk and $sg"
    [ -n "$disk" ] && [ -n "$sg" ] && [ -b "/dev/$disk" ]
}

# found_without_reset: the kernel asked for no unit that there is not: that would lock the device, and the kernel would reset the port.
found_without_reset() {
    same "resets of the port" "$(grep -c 'reset full-speed USB device' /tmp/kernel)" 0
}

# unplug: and waits until the kernel has let the disk go.
unplug() {
    ask unplug
    waited=0
    while ls /sys/block | grep -q '^sd' && [ $waited -lt 100 ]; do
        sleep 0.1
        waited=$((waited + 1))
    done
    mark "unplugged"
}
