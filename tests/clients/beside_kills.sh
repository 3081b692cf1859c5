# A volume is converted while eight clients write, read and flush, and the server is killed again and again at
# moments that are drawn; each time another one goes on with the conversion, and another conversion begins where one
# is at its end. Each block has what was flushed there last, or a value that was written since; at the end also by
# another reading of the format, and cryptsetup takes the volume. SEED (1) and KILLS (20) may be set.
. "$(dirname "$0")/common.sh"
needs python3
cd "$room" || exit 1
printf 'a passphrase' >key
truncate -s 81M volume.img
"$reencd" format volume.img --key-file key --iterations 1000 >/dev/null || fail "format"
python3 "$here/beside_kills.py" "$reencd" volume.img key "${SEED:-1}" "${KILLS:-20}" plain.bin || fail "the clients"
if python3 -c "import cryptography" 2>/dev/null; then
    "$here/decoded.py" volume.img key >decoded.bin || fail "the volume isn't decoded"
    cmp plain.bin decoded.bin || fail "another reading finds another content"
    echo "another reading finds the same content"
fi
if command -v cryptsetup >/dev/null; then
    cryptsetup luksDump volume.img >dump || fail "cryptsetup doesn't show the volume"
    grep -q "online-reencrypt" dump && fail "luksDump shows a conversion"
    cryptsetup open --test-passphrase --key-file key volume.img || fail "cryptsetup doesn't open the volume"
    echo "cryptsetup takes the volume"
fi
