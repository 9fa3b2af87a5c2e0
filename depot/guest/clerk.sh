# The clerk's program (document 02, A2): it files each collector under the serial that it reads by SCSI.

# clerk_reads: the serial by SCSI, which must be the one by USB; sets `serial`.
clerk_reads() {
    serial=$(scsi_id_says ID_SCSI_SERIAL)
    same "serial by SCSI" "$serial" "$(cat "$usb/serial")"
}

# clerk_files NAME: a collector that was not here yet gets a file of its own: no other one may have taken its serial.
clerk_files() {
    clerk_reads || return 1
    if [ -e "/clerk/$serial" ]; then
        echo "$serial is the file of $(cat "/clerk/$serial")"
        return 1
    fi
    echo "$1" >"/clerk/$serial" && echo "$1 is filed as $serial"
}

# clerk_knows NAME: a collector that was here has its file.
clerk_knows() {
    clerk_reads && same "$serial is" "$(cat "/clerk/$serial")" "$1"
}

# clerk_has SERIALS: the files, in order, and no other.
clerk_has() {
    same files "$(ls /clerk | tr '\n' ' ' | sed 's/ $//')" "$1"
}
