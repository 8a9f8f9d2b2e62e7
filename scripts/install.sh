#!/bin/sh
# Installs txc, its manual page and what bash, zsh and fish complete below a folder.
#
#     scripts/install.sh PREFIX
#
# The program is $TXC, or the one that `rt run` or the gate makes, which is proved, or that of scripts/quick_build.py.
# With $DESTDIR all of it is put below that folder, for packages.
set -eu
top=$(cd "$(dirname "$0")/.." && pwd)
if [ $# -ne 1 ] || [ "${1#-}" != "$1" ]; then
    sed -n '2,7s/^# \{0,1\}//p' "$0" >&2
    exit 2
fi
for program in "${TXC:-}" "$top/crates/txc/out/txc" "$top/out/txc" ''; do
    [ -n "$program" ] && [ -x "$program" ] && break
done
if [ -z "$program" ]; then
    echo 'install.sh: there is no txc: scripts/quick_build.py makes one' >&2
    exit 2
fi
to=${DESTDIR:-}$1
install -D -m 755 "$program" "$to/bin/txc"
install -D -m 644 "$top/share/txc.1" "$to/share/man/man1/txc.1"
install -D -m 644 "$top/share/txc.bash" "$to/share/bash-completion/completions/txc"
install -D -m 644 "$top/share/_txc" "$to/share/zsh/site-functions/_txc"
install -D -m 644 "$top/share/txc.fish" "$to/share/fish/vendor_completions.d/txc.fish"
install -D -m 644 "$top/LICENSE" "$to/share/doc/txc/LICENSE"
echo "$to/bin/txc: $("$program" --version)"
