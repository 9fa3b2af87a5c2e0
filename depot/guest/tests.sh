# What is plugged in, and what is asked of it.

mark "the guest is up: Linux $(uname -r)"

# The product pages of the bench's device (document 02, A2): whole, cut, and refused.
product_pages() {
    check sg_vpd-sv gives pages "sv sn di" page_00
    check sg_vpd-sn gives serial 000000000042 page_80
    check sg_vpd-di gives identifier "${IDENTIFIER}000000000042" page_83
    check page-00 received 7 /depot/page-00 raw -r 7 -- 12 01 00 00 07 00
    check page-80 received 16 /depot/page-80 raw -r 16 -- 12 01 80 00 10 00
    check page-83 received 28 /depot/page-83 raw -r 28 -- 12 01 83 00 1C 00
    check page-00-cut received 6 /depot/page-00 raw -r 6 -- 12 01 00 00 06 00
    check page-80-cut octets "00 80 00 0C" raw -r 64 -- 12 01 80 00 04 00
    check page-83-cut received 27 /depot/page-83 raw -r 27 -- 12 01 83 00 1B 00
    check page-80-of-0 nothing raw -r 16 -- 12 01 80 00 00 00
    check page-83-of-261 received 28 /depot/page-83 raw -r 261 -- 12 01 83 01 05 00
    check page-80-of-65535 received 16 /depot/page-80 raw -r 65535 -- 12 01 80 FF FF 00
    check page-refused sense "Invalid field in cdb" raw -r 252 -- 12 01 B0 00 FC 00
    check page-refused-of-0 sense "Invalid field in cdb" raw -- 12 01 81 00 00 00
    check page-without-evpd sense "Invalid field in cdb" raw -r 16 -- 12 00 80 00 10 00
    check page-naca-bit-refused sense "Invalid field in cdb" raw -r 16 -- 12 01 80 00 10 04
    check evpd-among-other-bits received 16 /depot/page-80 raw -r 16 -- 12 FF 80 00 10 00
    check other-bits-without-evpd received 36 /depot/inquiry raw -r 36 -- 12 FE 00 00 24 00
    check next-command-after-pages block_0 /depot/bench.before
    mark "product pages: whole, cut, refused"
}

# Which block was refused (document 02, A8), of the bench's 64: the number of blocks, or an address behind it, whatever the command.
range_failures() {
    check read-over-the-end outside 64 raw -r 5120 -- 28 00 00 00 00 3C 00 00 0A 00
    check request-sense-again received 18 /depot/no-sense raw -r 18 -- 03 00 00 00 12 00
    check count-0-past-the-end outside 65 raw -- 28 00 00 00 00 41 00 00 00 00
    check read-that-wraps outside 4294967280 raw -r 8704 -- 28 00 FF FF FF F0 00 00 11 00
    check write-over-the-end outside 64 raw -s 1024 -i /depot/bench.data -- 2A 00 00 00 00 3F 00 00 02 00
    check verify-over-the-end outside 64 raw -- 2F 00 00 00 00 20 00 00 21 00
    check unknown-code-refused sense "Invalid command operation code" raw -- C0 00 00 00 00 00
}

# The bench's device (number 42, other numbers 0, 64 zero blocks): its first events become a recording.
bench_device() {
    plug bench 42 0000 0000 0000 || return
    check found-without-reset found_without_reset
    check serial-number printed "SerialNumber: 000000000042"
    check serial-attribute attribute serial 000000000042
    check vendor-string printed "Manufacturer: COLLECT"
    check product-string printed "Product: METER EXPORT"
    check driver printed "usb-storage 1-1:1.0: USB Mass Storage device detected"
    check inquiry-strings printed "Direct-Access     COLLECT  METER EXPORT     0100 PQ: 0 ANSI: 5"
    check write-protection printed "[$disk] Write Protect is off"
    check blocks-64 blocks 64
    mark "recognized: COLLECT METER EXPORT 000000000042, 64 blocks"

    check sg_inq has "Product identification: METER EXPORT" sg_inq "/dev/$sg"
    check sg_readcap has "Last LBA=63 (0x3f), Number of logical blocks=64" sg_readcap "/dev/$sg"
    check sg_turs ready
    check sg_requests has "Sense key: No Sense" sg_requests "/dev/$sg"
    check sg_verify verifies 0 64
    check read-past-the-end outside 64 raw -r 512 -- 28 00 00 00 00 40 00 00 01 00
    check next-command-after-failure block_0 /depot/bench.before
    check verify-at-the-32-bits-end outside 4294967295 raw -- 2F 00 FF FF FF FF 00 00 01 00
    range_failures
    check link-bit-refused sense "Invalid field in cdb" raw -- 00 00 00 00 00 01
    check naca-bit-refused sense "Invalid field in cdb" raw -r 36 -- 12 00 00 00 24 04
    check link-bit-in-write-refused sense "Invalid field in cdb" raw -s 512 -i /depot/bench.data -- 2A 00 00 00 00 00 00 00 01 01
    check naca-bit-in-write-refused sense "Invalid field in cdb" raw -s 512 -i /depot/bench.data -- 2A 00 00 00 00 00 00 00 01 04
    check refused-writes-stored-nothing block_0 /depot/bench.before
    check other-control-bits-ignored raw -- 00 00 00 00 00 F8
    check sg_inq-256 has "Product identification: METER EXPORT" sg_inq --len=256 "/dev/$sg"
    check inquiry-of-261 received 36 /depot/inquiry raw -r 261 -- 12 00 00 01 05 00
    check inquiry-of-65535 received 36 /depot/inquiry raw -r 65535 -- 12 00 00 FF FF 00
    check request-sense-cut-by-byte-4 received 5 /depot/no-sense raw -r 18 -- 03 00 00 01 05 00
    check mode-sense-cut-by-byte-4 received 2 /depot/mode-sense raw -r 192 -- 1A 00 3F 01 02 00
    product_pages
    check short-data-in received 512 /depot/bench.before raw -r 1024 -- 28 00 00 00 00 00 00 00 01 00
    check short-data-out raw -s 1024 -i /depot/bench.data -- 2A 00 00 00 00 00 00 00 01 00
    check short-data-out-stored block_0 /depot/bench.data
    check phase-error-in phase raw -r 512 -- 28 00 00 00 00 00 00 00 02 00
    check next-command-after-phase-error-in block_0 /depot/bench.data
    check phase-error-out phase raw -s 512 -i /depot/bench.data -- 2A 00 00 00 00 05 00 00 02 00
    check next-command-after-phase-error-out block_0 /depot/bench.data
    mark "sg3-utils: commands, failures, short data, phase errors"

    check bench-writes writes bench
    check bench-reads-back reads bench.after
    ask "save bench"
    serials bench # after all that is recorded
    check bench-clerk clerk_files bench
    unplug
}

# What usb-storage never sends, to a collector of one unit.
transport() {
    plug transport 0 1209 0001 0100 || return
    check serial-twelve-zeros attribute serial 000000000000
    serials transport
    check transport-clerk clerk_files transport
    # Document 02's own example: address 120, count 10, 128 blocks.
    check read-120-count-10 outside 128 raw -r 5120 -- 28 00 00 00 00 78 00 00 0A 00
    check write-120-count-10 outside 128 raw -s 1024 -i /depot/transport.data -- 2A 00 00 00 00 78 00 00 0A 00
    check verify-120-count-10 outside 128 raw -- 2F 00 00 00 00 78 00 00 0A 00
    probed transport /depot/transport.before /depot/transport.data
    check "transport-reads-back" reads transport.after
    ask "save transport"
    mark "asks that wait, broken wrappers, resets in a transfer"
    unplug
}

# The largest medium (document 02, A5). It takes too long to be read whole: its ends are read, the blocks where an address of 12 or
# 16 bits would begin anew, and others.
largest() {
    plug largest 999999999999 1209 0001 0100 || return
    check serial-all-nines printed "SerialNumber: 999999999999"
    serials largest
    check largest-clerk clerk_files largest
    check identity printed "New USB device found, idVendor=1209, idProduct=0001, bcdDevice= 1.00"
    check blocks-1048576 blocks 1048576 "(537 MB/512 MiB)"
    check largest-sg_readcap has "Last LBA=1048575 (0xfffff), Number of logical blocks=1048576" sg_readcap "/dev/$sg"
    check largest-read-capacity octets "00 0F FF FF 00 00 02 00" raw -r 8 -- 25 00 00 00 00 00 00 00 00 00
    places="first 4096 65536 last others"
    for place in $places; do check "largest-reads-$place" reads_at "largest-$place" before; done
    check largest-writes writes largest
    for place in $places; do check "largest-reads-back-$place" reads_at "largest-$place" after; done
    ask "save largest"
    check largest-read-past-the-end outside 1048576 raw -r 512 -- 28 00 00 10 00 00 00 00 01 00
    check largest-read-over-the-end outside 1048576 raw -r 1024 -- 28 00 00 0F FF FF 00 00 02 00
    check largest-read-that-wraps outside 4294967295 raw -r 512 -- 28 00 FF FF FF FF 00 00 01 00
    check largest-write-over-the-end outside 1048576 raw -s 1024 -i /depot/largest.data -- 2A 00 00 0F FF FF 00 00 02 00
    check largest-count-0-past-the-end outside 1048577 raw -- 2F 00 00 10 00 01 00 00 00 00
    check largest-next-command reads_at largest-last after
    mark "1,048,576 blocks: some read, some written and read back"
}

# A file system on the largest medium, which is plugged in, kept over an unplugging: a new device over the same medium.
file_system() {
    check mkfs.vfat mkfs.fat "/dev/$disk"
    check mount mount -t vfat "/dev/$disk" /mnt
    check copy cp /depot/meter.csv /mnt/meter.csv
    check unmount umount /mnt
    mark "formatted, mounted, a CSV copied, unmounted"
    unplug
    ask "save file-system"
    plug same 999999999999 1209 0001 0100 || return
    check largest-clerk-again clerk_knows largest
    check fsck.vfat fsck.fat -n "/dev/$disk"
    check mount-again mount -t vfat -o ro "/dev/$disk" /mnt
    check compare cmp /mnt/meter.csv /depot/meter.csv
    check unmount-again umount /mnt
    mark "mounted again, compared: the CSV is the same"
    unplug
}

# whole NAME NUMBER BLOCKS: the pages as the kernel read them, all blocks read, some written, all read back.
whole() {
    plug "$1" "$2" 1209 0001 0100 || return
    check "serial-$1" attribute serial "$(printf %012d "$2")"
    kernel_pages "$1"
    serials "$1"
    check "$1-clerk" clerk_files "$1"
    check "blocks-$3" blocks "$3"
    check "$1-reads" reads "$1.before"
    check "$1-writes" writes "$1"
    check "$1-reads-back" reads "$1.after"
    ask "save $1"
    mark "$3 block(s): all read, some written, all read back"
    unplug
}

bench_device
sealed
# QEMU's uhci does not take a transfer back that waits, so that it would answer a later ask.
[ "$(cat /depot/controller)" = xhci ] && transport
districts
# 4200 has the digits of 42, in other places; 4201 differs from it in one digit.
kernel_asks_for_pages 0x10000000
whole one 4200 1
whole seven 7000000 7
whole large 4201 4096
kernel_asks_for_pages 0
largest && file_system
quarters
filed="000000000004 000000000005 000000000024 000000000042 000000004200 000000004201 000007000000 999999999999"
[ "$(cat /depot/controller)" = xhci ] && filed="000000000000 $filed"
check clerk-told-all-apart clerk_has "$filed"
mark "the clerk has a file of each collector"
