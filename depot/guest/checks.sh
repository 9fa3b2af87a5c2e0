# The checks. Each is a command that `check` runs: it fails where the disk is not what document 01 makes it.

# printed TEXT: the kernel printed it when the device was plugged in.
printed() {
    echo "the kernel did not print: $1"
    grep -F "$1" /tmp/kernel | tail -n 1 | sed 's/^\[ *[0-9.]*\] //' | grep .
}

attribute() {
    same "$1" "$(cat "$usb/$1")" "$2"
}

# blocks N [SIZE]: the disk's size, and the kernel's own line about it, in which SIZE is what it makes of N.
blocks() {
    same blocks "$(cat "/sys/block/$disk/size")" "$1" && printed "[$disk] $1 512-byte logical blocks: ${2-}"
}

# writes MEDIUM: the run's random blocks, each where MEDIUM.list says. Through sg, for the disk's cache would write whole pages.
writes() {
    at=0
    while read -r block count; do
        sg_dd if="/depot/$1.data" of="/dev/$sg" bs=512 skip=$at seek="$block" count="$count" 2>/tmp/dd || {
            tail -n 1 /tmp/dd
            return 1
        }
        at=$((at + count))
    done <"/depot/$1.list"
    echo "$at blocks written"
}

# reads FILE: the whole disk, with nothing left in the cache, is what the run expects it to be.
reads() {
    blockdev --flushbufs "/dev/$disk"
    dd if="/dev/$disk" of=/tmp/got bs=4k 2>/tmp/dd || {
        tail -n 1 /tmp/dd
        return 1
    }
    cmp /tmp/got "/depot/$1" && echo "$(($(stat -c %s /tmp/got) / 512)) blocks equal"
}

# reads_at PLACES KIND: the blocks that PLACES.list names, through sg, are those of PLACES.KIND. A list's line is one command.
reads_at() {
    at=0
    while read -r block count; do
        rm -f /tmp/got # sg_dd does not cut an older file
        sg_dd if="/dev/$sg" of=/tmp/got bs=512 skip="$block" count="$count" 2>/tmp/dd || {
            tail -n 1 /tmp/dd
            return 1
        }
        dd if="/depot/$1.$2" of=/tmp/expected bs=512 skip=$at count="$count" 2>/tmp/dd
        cmp /tmp/got /tmp/expected >/tmp/cmp || {
            byte=$(sed -n 's/.*differ: char \([0-9]*\).*/\1/p' /tmp/cmp)
            echo "block $((block + (${byte:-1} - 1) / 512)) has other bytes, in a read of $count from $block"
            return 1
        }
        at=$((at + count))
    done <"/depot/$1.list"
    echo "$at blocks equal"
}

# raw OPTIONS.. -- BLOCK..: a command block as it stands; what came in is in /tmp/got, what was told, sense data too, in /tmp/raw.
raw() {
    rm -f /tmp/got
    options=
    while [ "$1" != -- ]; do
        options="$options $1"
        shift
    done
    shift
    sg_raw -v -t 5 -o /tmp/got $options "/dev/$sg" "$@" >/tmp/raw 2>&1
}

# received N FILE raw ..: the command passes, and brings exactly the N bytes that FILE begins with.
received() {
    n=$1
    file=$2
    shift 2
    "$@" || {
        grep . /tmp/raw | tail -n 1
        return 1
    }
    head -c "$n" "$file" | cmp - /tmp/got && echo "$n bytes, equal"
}

# octets BYTES raw ..: the command passes, and brings exactly these bytes, in hex.
octets() {
    expected=$1
    shift
    "$@" || {
        grep . /tmp/raw | tail -n 1
        return 1
    }
    same bytes "$(hexdump -v -e '/1 "%02X "' /tmp/got | sed 's/ $//')" "$expected"
}

# gives WHAT EXPECTED COMMAND..: what the command prints, its complaints too.
gives() {
    what=$1
    expected=$2
    shift 2
    same "$what" "$("$@" 2>&1)" "$expected"
}

# phase raw ..: the command ends in a transport error; the kernel resets the port and finds the device again.
phase() {
    dmesg -c >/dev/null
    "$@" && {
        echo "the command passed"
        return 1
    }
    same "resets of the port" "$(dmesg | grep -c 'reset full-speed USB device')" 1
}

# ready: sg_turs alone is too kind, it also passes where the transport failed; the kernel's log says that.
ready() {
    dmesg -c >/dev/null
    sg_turs "/dev/$sg" || return 1
    if dmesg | grep -E 'FAILED Result|reset .*speed USB device'; then return 1; fi
    echo "ready"
}

# block_0 FILE: the next command works: a read of the first block, equal to what FILE begins with.
block_0() {
    received 512 "$1" raw -r 512 -- 28 00 00 00 00 00 00 00 01 00
}

# verifies BLOCK COUNT
verifies() {
    sg_verify --lba="$1" --count="$2" "/dev/$sg" && echo "$2 blocks from $1"
}

# has TEXT COMMAND..: the command passes and prints it.
has() {
    text=$1
    shift
    "$@" >/tmp/tool 2>&1
    code=$?
    echo "status $code, no \"$text\": $(tail -n 1 /tmp/tool)"
    [ $code = 0 ] && grep -F "$text" /tmp/tool | sed 's/^ *//' | grep .
}
