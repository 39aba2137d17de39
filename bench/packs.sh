#!/usr/bin/env bash
# Times the mounting of 32 packs by the size of their directories, and look-ups that ask all of them.
# First run `rt run` in crates/quake_cli, which builds it. It needs python3, which writes the packs.
set -e
cd "$(dirname "$0")/.."
program=$PWD/crates/quake_cli/out/quake_cli
place=$(mktemp -d)
trap 'rm -r "$place"' EXIT

# write_packs ENTRIES: 32 packs of so many entries each.
write_packs() {
    mkdir -p "$place/$1"
    python3 - "$1" "$place/$1" <<'PYTHON'
import struct, sys
count, place = int(sys.argv[1]), sys.argv[2]
for pack in range(32):
    rows = b"".join(
        struct.pack("<56sII", b"maps/pack%d/entry%d.txt" % (pack, entry), 12 + 64 * count, 1) for entry in range(count)
    )
    with open(f"{place}/pak{pack}.pak", "wb") as file:
        file.write(b"PACK" + struct.pack("<II", 12, len(rows)) + rows + b"x")
PYTHON
}

for entries in 256 512 1024 2048; do
    write_packs "$entries"
    TIMEFORMAT="32 packs of $entries entries, mounted: %R s (user %U, system %S)"
    time "$program" "$place/$entries" </dev/null
done

# Each line asks 32 packs and the folder, which doesn't have the file; the last file of `pak0.pak` is behind 31 packs.
yes "exec maps/none.txt" | head -n 20000 >"$place/none.cfg"
yes "exec maps/pack0/entry2047.txt" | head -n 20000 >"$place/last.cfg"
yes "exec none/none" | head -n 20000 >"$place/unlawful.cfg"
sed -i 's/none$/../' "$place/unlawful.cfg"
for script in unlawful none last; do
    TIMEFORMAT="20000 lines, $script: %R s (user %U, system %S)"
    time "$program" "$place/2048" <"$place/$script.cfg" >/dev/null
done
