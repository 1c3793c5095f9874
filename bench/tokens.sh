#!/bin/sh
# Reads 64 tokens of 1 MiB of each kind, and prints the speed of the proved reader, of the plain one in
# plain.rs where rustc is there, and their ratio. Run it as bench/tokens.sh; it writes to a temporary folder.
set -eu
here=$(cd "$(dirname "$0")" && pwd)
work=$(mktemp -d)
trap 'rm -rf "$work"' EXIT
(cd "$here/../crates/token_count" && rt run < stdin > "$work/warm" 2> "$work/log") || { cat "$work/log"; exit 1; }
proved="$here/../crates/token_count/out/token_count"
plain=
if command -v rustc > /dev/null; then
    rustc -O -o "$work/plain" "$here/plain.rs"
    plain="$work/plain"
fi
python3 - "$work" <<'PYTHON'
import sys
mib = 1 << 20
def fill(head, unit, tail):
    body = unit * ((mib - len(head) - len(tail)) // len(unit))
    return head + body + tail
def attributes():
    tag, i = [b"<a"], 0
    size = 2
    while size < mib - 16:
        one = b' n%d="v"' % i
        tag.append(one)
        size += len(one)
        i += 1
    return b"".join(tag) + b">"
kinds = {
    "declaration": fill(b'<?xml version="1.0"', b" ", b"?>"),
    "comment": fill(b"<!--", b"x", b"-->"),
    "instruction": fill(b"<?a ", b"x", b"?>"),
    "cdata": fill(b"<![CDATA[", b"x", b"]]>"),
    "cdata-lines": fill(b"<![CDATA[", b"some words\r\n", b"]]>"),
    "start-value": fill(b'<a b="', b"x", b'">'),
    "start-attributes": attributes(),
    "empty-references": fill(b'<a b="', b"some words &amp; ", b'"/>'),
    "end": fill(b"</", b"x", b">"),
    "characters": fill(b"", b"x", b"") + b"<b/>",
    "characters-references": fill(b"", b"some words &amp; ", b"") + b"<b/>",
    "characters-two-byte": fill(b"", "\u00e9".encode(), b"") + b"<b/>",
}
for name, token in kinds.items():
    with open(f"{sys.argv[1]}/{name}.xml", "wb") as f:
        for _ in range(64):
            f.write(token)
PYTHON
seconds() {
    python3 - "$@" <<'PYTHON'
import subprocess, sys, time
best = 1e9
for _ in range(3):
    with open(sys.argv[2], "rb") as f:
        begin = time.monotonic()
        subprocess.run([sys.argv[1]], stdin=f, stdout=subprocess.DEVNULL, check=True)
        best = min(best, time.monotonic() - begin)
print(f"{best:.3f}")
PYTHON
}
for input in "$work"/*.xml; do
    ours=$(seconds "$proved" "$input")
    theirs=${plain:+$(seconds "$plain" "$input")}
    python3 -c "
import sys
name, ours, theirs = sys.argv[1], float(sys.argv[2]), sys.argv[3]
line = f'{name:24} {67.1 / ours:7.0f} MB/s'
if theirs:
    line += f', plain {67.1 / float(theirs):7.0f} MB/s, ratio {ours / float(theirs):.2f}'
print(line)" "$(basename "$input" .xml)" "$ours" "${theirs:-}"
done
