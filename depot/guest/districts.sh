# The collectors of four units (document 02, A7) that are plugged in: units.sh has what is asked of each unit.

# mounted COMMAND..: with the file system of each unit in /mnt/N.
mounted() {
    for district in $DISTRICTS; do
        unit "$district"
        mkdir -p "/mnt/$district"
        mount -t vfat "/dev/$disk" "/mnt/$district" || return 1
    done
    "$@"
    outcome=$?
    for district in $DISTRICTS; do umount "/mnt/$district" || return 1; done
    return $outcome
}

# Each district's CSV to its own disk, all four at once.
copied() {
    for district in $DISTRICTS; do cp "/depot/district-$district.csv" "/mnt/$district/meter.csv" & done
    wait
    for district in $DISTRICTS; do cmp "/depot/district-$district.csv" "/mnt/$district/meter.csv" || return 1; done
    echo "four CSVs copied"
}

# added N: a second file to a disk that is mounted for writing.
added() {
    mount -t vfat "/dev/$disk" /mnt || return 1
    cmp "/depot/district-$1.csv" /mnt/meter.csv && cp /depot/meter.csv /mnt/later.csv
    outcome=$?
    umount /mnt
    return $outcome
}

# The customer's use: a file system for each district, with its own CSV. A new collector over the same medium then has the switch of
# unit 1 closed: this district is read, the others are written.
units_csv() {
    for district in $DISTRICTS; do
        unit "$district"
        check "unit-$district-mkfs" mkfs.fat "/dev/$disk"
    done
    check units-copied mounted copied
    unplug
    ask "save districts-csv"
    turn closed 1
    plug same 4 1209 0001 0100 || return
    check districts-clerk-again clerk_knows districts
    protection again 1
    for district in $DISTRICTS; do
        unit "$district"
        check "unit-$district-fsck" fsck.fat -n "/dev/$disk"
    done
    unit 1
    check unit-1-kept dd if="/dev/$disk" of=/depot/districts-1.now bs=4k
    for district in 0 2 3; do
        unit "$district"
        check "unit-$district-file-added" added "$district"
    done
    unit 1
    check unit-1-mount mounts_read_only
    check unit-1-csv cmp /mnt/meter.csv /depot/district-1.csv
    check unit-1-copy refused cp /depot/meter.csv /mnt/later.csv
    check unit-1-unmount umount /mnt
    check unit-1-unchanged reads districts-1.now
    ask "save districts-sealed"
    mark "four districts' CSVs, one of them sealed"
    unplug
}

districts() {
    DISKS=4
    turn closed 3
    if plug districts 4 1209 0001 0100; then
        check districts-clerk clerk_files districts
        units_found
        units_end
        units_written
        # QEMU's uhci does not take a transfer back that waits, so that it would answer a later ask.
        [ "$(cat /depot/controller)" = xhci ] && units_probed
        units_csv
    fi
    DISKS=1
}

# The largest collector, of four largest units: a place in its medium takes 31 bits. The ends of each unit are read, its last block is written.
quarters() {
    DISKS=4
    if plug quarters 5 1209 0001 0100; then
        check quarters-clerk clerk_files quarters
        for district in $DISTRICTS; do
            unit "$district"
            check "quarters-$district-blocks" blocks 1048576 "(537 MB/512 MiB)"
            check "quarters-$district-reads" reads_at "quarters-$district-ends" before
            check "quarters-$district-read-past-the-end" outside 1048576 raw -r 512 -- 28 00 00 10 00 00 00 00 01 00
            check "quarters-$district-writes" writes "quarters-$district"
        done
        for district in $DISTRICTS; do
            unit "$district"
            check "quarters-$district-reads-back" reads_at "quarters-$district-ends" after
        done
        ask "save quarters"
        mark "four largest units: the ends of each read, its last block written"
        unplug
    fi
    DISKS=1
}
