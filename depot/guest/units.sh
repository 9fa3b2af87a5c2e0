# Several units (document 02, A7): one collector for four districts, of which Linux makes four disks.

DISTRICTS="0 1 2 3"

# unit N: the next checks are about this unit: sets `disk` and `sg`. The kernel may give the letters in any order.
unit() {
    disk=
    for found in /sys/block/sd*; do
        case "$(readlink -f "$found/device")" in *:"$1") disk=$(basename "$found") ;; esac
    done
    sg=$(ls "/sys/block/$disk/device/scsi_generic")
}

disks() {
    ls /sys/block | grep '^sd' | tr '\n' ' ' | sed 's/ $//'
}

# size N: the unit's number of blocks.
size() {
    sed -n "$(($1 + 1))p" /depot/districts.sizes
}

# address N: a block's number as a command block has it.
address() {
    printf %08X "$1" | sed 's/../& /g'
}

# now N FILE: what the unit's blocks are from now on.
now() {
    cp "$2" "/depot/districts-$1.now"
}

# others N: the disks of the other units are bit for bit what they were.
others() {
    for other in $DISTRICTS; do
        [ "$other" = "$1" ] && continue
        unit "$other"
        reads "districts-$other.now" >/tmp/other 2>&1 || {
            echo "unit $other: $(tail -n 1 /tmp/other)"
            unit "$1"
            return 1
        }
    done
    unit "$1"
    echo "the blocks of all units but $1 are equal"
}

# protection NAME CLOSED: Linux takes this unit for write protected, and the others not.
protection() {
    for district in $DISTRICTS; do
        unit "$district"
        if [ "$district" = "$2" ]; then said=on ro=1; else said=off ro=0; fi
        check "$1-$district-write-protect" printed "[$disk] Write Protect is $said"
        check "$1-$district-ro" read_only $ro
    done
}

# Each unit as Linux finds it. Only unit 3 has its switch closed.
units_found() {
    check units-found-without-reset found_without_reset
    check units-disks gives disks "sda sdb sdc sdd" disks
    for district in $DISTRICTS; do
        unit "$district"
        blocks=$(size "$district")
        check "unit-$district-blocks" blocks "$blocks"
        check "unit-$district-sg_readcap" has "Last LBA=$((blocks - 1)) ($(printf 0x%x $((blocks - 1)))), Number of logical blocks=$blocks" sg_readcap "/dev/$sg"
        check "unit-$district-page-80" gives serial 000000000004 page_80
    done
    protection unit 3
    for district in $DISTRICTS; do
        unit "$district"
        now "$district" "/depot/districts-$district.before"
        check "unit-$district-reads" reads "districts-$district.now"
    done
    mark "four disks, of $(tr '\n' ' ' </depot/districts.sizes)blocks"
}

# The block behind a unit's end is the next unit's first, and nobody gets it by this one. The sense names the unit's own number.
units_end() {
    for district in $DISTRICTS; do
        unit "$district"
        blocks=$(size "$district")
        check "unit-$district-read-past-the-end" outside "$blocks" raw -r 512 -- 28 00 $(address "$blocks") 00 00 01 00
        check "unit-$district-read-over-the-end" outside "$blocks" raw -r 1024 -- 28 00 $(address $((blocks - 1))) 00 00 02 00
        check "unit-$district-write-over-the-end" outside "$blocks" raw -s 1024 -i "/depot/districts-$district.data" -- 2A 00 $(address $((blocks - 1))) 00 00 02 00
        check "unit-$district-verify-past-the-end" outside "$blocks" raw -- 2F 00 $(address "$blocks") 00 00 01 00
        check "unit-$district-last-block" verifies $((blocks - 1)) 1
    done
}

# unit_write N: the whole disk, through the kernel's block layer.
unit_write() {
    dd if="/depot/districts-$1.data" of="/dev/$disk" bs=4k conv=fsync
}

# unit_refuses N: Linux does not open the disk for writing, and a Write through sg fails with 07/27/00.
unit_refuses() {
    unit "$1"
    check "unit-$1-disk-write-refused" refused unit_write "$1"
    check "unit-$1-write-refused" protected raw -s 512 -i "/depot/districts-$1.data" -- 2A 00 00 00 00 00 00 00 01 00
}

# unit_written N: its own pattern on its own disk. The other disks, and their parts of the medium, are what they were.
unit_written() {
    unit "$1"
    check "unit-$1-writes" unit_write "$1"
    now "$1" "/depot/districts-$1.data"
    check "unit-$1-reads-back" reads "districts-$1.now"
    check "unit-$1-others" others "$1"
    ask "save districts-written-$1"
}

# Unit 3 is closed while the others are written; then it is opened and written, and unit 1 is closed.
units_written() {
    unit_refuses 3
    for district in 0 1 2; do unit_written "$district"; done
    turn open 3
    turn closed 1
    for district in $DISTRICTS; do
        unit "$district"
        look_again
        cat /tmp/kernel >>/tmp/looked
    done
    mv /tmp/looked /tmp/kernel
    check opened-3-write-protect printed "[$(unit 3; echo "$disk")] Write Protect is off"
    check closed-1-write-protect printed "[$(unit 1; echo "$disk")] Write Protect is on"
    check units-looked-at same "lines about it" "$(grep -c "Write Protect" /tmp/kernel)" 2
    unit_refuses 1
    unit_written 3
    check unit-3-phase-error phase raw -r 512 -- 28 00 00 00 00 00 00 00 02 00
    check unit-3-others-after-port-reset others 3
    turn open 1
    unit 1
    look_again
    mark "each unit written by itself, the others bit for bit the same"
}

# What usb-storage never sends, to a collector of four units.
units_probed() {
    cat /depot/districts-?.now >/tmp/districts
    probed units /tmp/districts /depot/districts.data
    for district in $DISTRICTS; do
        unit "$district"
        now "$district" "/depot/districts-$district.probed"
        check "unit-$district-after-probe" reads "districts-$district.now"
    done
    ask "save districts-probed"
    mark "senses apart, units that there are not, resets in a Write"
}
