# Sense data: why a command failed, as Linux fetched it with Request Sense, and as sg_raw tells it.

# fetched raw ..: the command fails; sets `bytes`, its sense data in hex.
fetched() {
    "$@" && {
        echo "the command passed"
        return 1
    }
    bytes=$(sed -n '/Raw sense data/,/^ *$/p' /tmp/raw | sed 1d | tr 'a-f\n' 'A-F ' | sed 's/^ *//; s/ *$//; s/  */ /g')
    echo "no sense data: $(grep . /tmp/raw | tail -n 1)"
    [ -n "$bytes" ]
}

# sense TEXT raw ..: the command fails, and the sense says why. It has no INFORMATION: 70, and zeros in bytes 3 to 6 (document 02, A8).
sense() {
    text=$1
    shift
    fetched "$@" && same "sense" "${bytes%% 0A *}" "70 00 05 00 00 00 00" || return 1
    echo "no \"$text\": $(grep . /tmp/raw | tail -n 1)"
    grep -A 1 -i 'illegal request' /tmp/raw | grep -i "$text"
}

# outside BLOCK raw ..: the command fails with 05/21/00, and the sense names BLOCK, the first outside the unit (document 02, A8): its 18
# bytes, and what sg3-utils make of them.
outside() {
    block=$1
    shift
    expected="F0 00 05 $(printf %08X "$block" | sed 's/../& /g')0A 00 00 00 00 21 00 00 00 00 00"
    fetched "$@" && same "sense" "$bytes" "$expected" || return 1
    told=$(sed -n 's/^ *Additional sense: \(.*\)/\1,/p; s/^ *\(Info fld=.*\]\).*/ \1/p' /tmp/raw | tr -d '\n')
    same "sg_raw:" "$told" "Logical block address out of range, Info fld=$(printf 0x%x "$block") [$block]"
}
