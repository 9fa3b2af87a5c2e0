# The probe: what usb-storage never sends.

# probed LIST BEFORE DATA: the driver lets go, the probe makes the checks of its list, and after a reset of the port the driver has the
# device again.
probed() {
    dmesg -c >/dev/null
    echo "$(basename "$usb"):1.0" >/sys/bus/usb/drivers/usb-storage/unbind
    file=$(printf /dev/bus/usb/%03d/%03d "$(cat "$usb/busnum")" "$(cat "$usb/devnum")")
    /depot/probe "$1" "$file" "$2" "$3" >/tmp/probe
    status=$?
    while read -r line; do say "check $line"; done </tmp/probe
    check probe-ended same status $status 0
    check driver-again appears
}
