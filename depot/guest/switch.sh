# The write switch (document 02, A4): what Linux makes of a collector whose switch is closed, before it is plugged in and after.

# turn POSITION UNIT [after PACKETS]: turns the unit's switch, of the collector that is plugged in, or of the next one before that is; with
# PACKETS once the device has taken so many more packets.
turn() {
    ask "switch $*"
    mark "the switch of unit $2: $1${4:+ after $4 packets}"
}

# look_again: Linux reads Mode Sense when it finds a disk, and when it is told to look at it again.
look_again() {
    dmesg -c >/dev/null
    echo 1 >"/sys/block/$disk/device/rescan"
    dmesg >/tmp/kernel
}

# read_only 0|1: whether Linux takes the disk for one that cannot be written.
read_only() {
    same ro "$(cat "/sys/block/$disk/ro")" "$1"
}

# protected raw ..: the command fails with 07/27/00: the sense's 18 bytes, and what sg3-utils make of them.
protected() {
    fetched "$@" && same "sense" "$bytes" "70 00 07 00 00 00 00 0A 00 00 00 00 27 00 00 00 00 00" || return 1
    told=$(sed -n 's/.*Sense key: \(.*\)/\1,/p; s/^ *Additional sense: \(.*\)/ \1/p' /tmp/raw | tr -d '\n')
    same "sg_raw:" "$told" "Data Protect, Write protected"
}

# passed raw ..: the command passes.
passed() {
    "$@" || {
        grep . /tmp/raw | tail -n 1
        return 1
    }
    echo "passed"
}

# refused COMMAND..: Linux itself does not let the command write.
refused() {
    "$@" 2>/tmp/refused && {
        echo "it was written"
        return 1
    }
    grep -F "Read-only file system" /tmp/refused
}

# disk_write: the disk's last 4,096 bytes, through its block device.
disk_write() {
    dd if=/depot/sealed.data of="/dev/$disk" bs=4k count=1 seek=63 conv=fsync
}

# mounts_read_only: a mount that did not ask for it is read-only, and says so ("loud": busybox's keeps quiet by itself).
mounts_read_only() {
    mount -t vfat -o loud "/dev/$disk" /mnt 2>/tmp/mount || return 1
    echo "mounted: $(grep ' /mnt ' /proc/mounts)"
    grep -q ' /mnt vfat ro,' /proc/mounts && grep -F "write-protected, mounting read-only" /tmp/mount
}

# configures_again: Linux takes the configuration away and sets it anew, and so finds the disk anew.
configures_again() {
    dmesg -c >/dev/null
    echo 0 >"$usb/bConfigurationValue"
    echo 1 >"$usb/bConfigurationValue"
    appears
}

# closed_disk NAME: Linux has found the switch closed: it says so, writes nothing, and reads what there is.
closed_disk() {
    check "$1-write-protect" printed "[$disk] Write Protect is on"
    check "$1-mode-sense-seen" printed "[$disk] Mode Sense: 03 00 80 00"
    check "$1-ro" read_only 1
    check "$1-disk-write" refused disk_write
    check "$1-write" protected raw -s 512 -i /depot/sealed.data -- 2A 00 00 00 00 00 00 00 01 00
    check "$1-mount" mounts_read_only
    check "$1-csv" cmp /mnt/meter.csv /depot/meter.csv
    check "$1-copy" refused cp /depot/meter.csv /mnt/other.csv
    check "$1-unmount" umount /mnt
    check "$1-unchanged" reads sealed.formatted
}

# Commands with the switch closed. Fields and range are checked before it, and a Write that it fails has no data, whatever was announced.
closed_commands() {
    check closed-mode-sense octets "03 00 80 00" raw -r 4 -- 1A 00 3F 00 04 00
    check closed-mode-sense-cut octets "03 00 80" raw -r 192 -- 1A 00 3F 00 03 00
    check closed-write-of-0 protected raw -- 2A 00 00 00 00 00 00 00 00 00
    check closed-request-sense-again received 18 /depot/no-sense raw -r 18 -- 03 00 00 00 12 00
    check closed-write-announcing-nothing protected raw -- 2A 00 00 00 00 00 00 00 01 00
    check closed-write-announcing-input protected raw -r 512 -- 2A 00 00 00 00 00 00 00 01 00
    check closed-write-over-the-end outside 512 raw -s 1024 -i /depot/sealed.data -- 2A 00 00 00 01 FF 00 00 02 00
    check closed-write-with-naca-bit sense "Invalid field in cdb" raw -s 512 -i /depot/sealed.data -- 2A 00 00 00 00 00 00 00 01 04
    check closed-verify verifies 0 512
}

# No reset moves the switch: here those that Linux itself does. The probe has the others.
closed_resets() {
    check closed-phase-error phase raw -r 512 -- 28 00 00 00 00 00 00 00 02 00
    check closed-after-port-reset protected raw -s 512 -i /depot/sealed.data -- 2A 00 00 00 00 00 00 00 01 00
    check closed-configured-again configures_again
    check closed-after-configuration printed "[$disk] Write Protect is on"
    check closed-write-after-configuration protected raw -s 512 -i /depot/sealed.data -- 2A 00 00 00 00 00 00 00 01 00
}

# The switch is opened: the next command finds it so, and Linux once it looks. Then it is closed again in the middle of a Write: this
# one arrives whole, the next fails.
opened() {
    turn open 0
    check opened-write passed raw -s 512 -i /depot/sealed.data -- 2A 00 00 00 01 90 00 00 01 00
    look_again
    check opened-write-protect printed "[$disk] Write Protect is off"
    check opened-ro read_only 0
    check opened-mode-sense octets "03 00 00 00" raw -r 4 -- 1A 00 3F 00 04 00
    check opened-disk-write disk_write
    turn closed 0 after 100
    check closed-in-write passed raw -s 16384 -i /depot/sealed.data -- 2A 00 00 00 01 B8 00 00 20 00
    check closed-in-write-stored received 16384 /depot/sealed.data raw -r 16384 -- 28 00 00 00 01 B8 00 00 20 00
    check closed-after-write protected raw -s 512 -i /depot/sealed.data -- 2A 00 00 00 01 B8 00 00 01 00
    ask "save sealed-opened"
}

# A collector with a file system and a CSV on it. Its switch is closed while it is plugged in, and then before it is plugged in again.
sealed() {
    plug sealed 24 1209 0001 0100 || return
    serials sealed
    check sealed-clerk clerk_files sealed
    check open-ro read_only 0
    check sealed-mkfs mkfs.fat "/dev/$disk"
    check sealed-mount mount -t vfat "/dev/$disk" /mnt
    check sealed-copy cp /depot/meter.csv /mnt/meter.csv
    check sealed-unmount umount /mnt
    check sealed-kept dd if="/dev/$disk" of=/depot/sealed.formatted bs=4k
    ask "save sealed"
    turn closed 0
    check closed-next-write protected raw -s 512 -i /depot/sealed.data -- 2A 00 00 00 00 00 00 00 01 00
    look_again
    closed_disk closed
    closed_commands
    closed_resets
    unplug
    turn closed 0
    plug same 24 1209 0001 0100 || return
    check sealed-clerk-again clerk_knows sealed
    closed_disk plugged-in-closed
    ask "save sealed-closed"
    mark "closed before the plug: Linux reads, and writes nothing"
    opened
    unplug
}
