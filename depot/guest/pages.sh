# The product pages of Inquiry (document 02, A2): the collector's serial by SCSI.

# What sg3-utils make of each page: the names that they have for the listed pages, the serial, and the identifier with its kind.
page_00() {
    sg_vpd -p sv "/dev/$sg" | sed -n 's/.*\[\(..\)\]$/\1/p' | tr '\n' ' ' | sed 's/ $//'
}

page_80() {
    sg_vpd -p sn "/dev/$sg" | sed -n 's/^ *Unit serial number: //p'
}

page_83() {
    sg_vpd -p di "/dev/$sg" | sed -n 's/^ *designator type: \(.*\)/\1: /p; s/^ *vendor id: //p; s/^ *vendor specific: //p' | tr -d '\n'
}

IDENTIFIER="T10 vendor identification,  code set: ASCII: COLLECT "

# scsi_id_says FIELD: udev's program makes ID_SERIAL of page 83 (its kind, 1, and the identifier) and ID_SCSI_SERIAL of page 80.
scsi_id_says() {
    scsi_id --export --whitelisted --page=0x83 --device="/dev/$disk" | sed -n "s/^$1=//p"
}

# nothing raw ..: the command passes, and brings no byte.
nothing() {
    "$@" || {
        grep . /tmp/raw | tail -n 1
        return 1
    }
    same bytes "$(cat /tmp/got 2>/dev/null | wc -c)" 0
}

# serials NAME: whoever reads the serial by SCSI gets the serial by USB.
serials() {
    serial=$(cat "$usb/serial")
    check "$1-page-80" gives serial "$serial" page_80
    check "$1-page-83" gives identifier "$IDENTIFIER$serial" page_83
    check "$1-scsi_id" gives ID_SERIAL "1COLLECT_$serial" scsi_id_says ID_SERIAL
}

# Linux reads no pages of a USB drive by itself: usb-storage has it so. 10000000 hex (BLIST_TRY_VPD_PAGES) is its own flag for a drive
# of which it shall; 0 is what it has without orders.
kernel_asks_for_pages() {
    echo "$1" >/sys/module/scsi_mod/parameters/default_dev_flags
}

# kernel_page PAGE BYTES: what the kernel has read of a page, when it found the drive, is these bytes, in hex.
kernel_page() {
    same "page $1" "$(hexdump -v -e '/1 "%02X "' "/sys/block/$disk/device/vpd_pg$1" | sed 's/ $//')" "$2"
}

# kernel_pages NAME: the pages in sysfs, and the name that the kernel makes of page 83.
kernel_pages() {
    serial=$(cat "$usb/serial")
    digits=$(printf %s "$serial" | hexdump -v -e '/1 " %02X"')
    check "$1-kernel-page-0" kernel_page 0 "00 00 00 03 00 80 83"
    check "$1-kernel-page-80" kernel_page 80 "00 80 00 0C$digits"
    check "$1-kernel-page-83" kernel_page 83 "00 83 00 18 02 01 00 14 43 4F 4C 4C 45 43 54 20$digits"
    check "$1-kernel-wwid" gives wwid "t10.COLLECT $serial" cat "/sys/block/$disk/device/wwid"
}
