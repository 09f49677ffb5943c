#!/bin/sh
# Makes a Debian package of the built program, its man page and documents, the examples, and the
# Python package with its programs. It needs dpkg-deb, and no network.
#
#   sh package/deb.sh [PROGRAM [FOLDER]]
#
# PROGRAM is the program, if it is not the one that ./replay built; FOLDER is where the package is
# written, here if none is given. It is for this machine's architecture alone.
set -e
top=$(cd "$(dirname "$0")/.." && pwd)
program=${1:-$top/crates/nukwashe/out/nukwashe}
folder=${2:-.}

tell() { echo "package: $*" >&2; }

for tool in dpkg-deb dpkg python3 gzip; do
    command -v "$tool" > /dev/null || { tell "$tool is needed, and is not there"; exit 1; }
done
if [ ! -x "$program" ]; then
    tell "there is no program $program; ./replay WORLD SCHEDULE builds it"
    exit 1
fi
version=$("$program" --version | awk '{ print $2 }')
# The newest version of the C library that the program asks for.
library=$(grep -aoE 'GLIBC_[0-9]+\.[0-9]+' "$program" | sed 's/GLIBC_//' | sort -V | tail -n 1)
built=$(mktemp -d)
trap 'rm -rf "$built"' EXIT
root=$built/root
share=$root/usr/share

# Copies a file, or a folder without what Python keeps of it.
put() {
    mkdir -p "$(dirname "$2")"
    cp -r "$1" "$2"
    find "$2" -name __pycache__ -prune -exec rm -rf {} +
}

put "$program" "$root/usr/bin/nukwashe"
put "$top/docs/nukwashe.1" "$share/man/man1/nukwashe.1"
gzip -9n "$share/man/man1/nukwashe.1"
put "$top/README.md" "$share/doc/nukwashe/README.md"
put "$top/docs" "$share/doc/nukwashe/docs"
put "$top/examples" "$share/doc/nukwashe/examples"
put "$top/clients/python/README.md" "$share/doc/nukwashe/python.md"
put "$top/clients/python/nukwashe" "$root/usr/lib/python3/dist-packages/nukwashe"

# A program for each console script of the Python package.
python3 - "$top/clients/python/pyproject.toml" "$root/usr/bin" << 'END'
import pathlib, sys, tomllib
project = tomllib.loads(pathlib.Path(sys.argv[1]).read_text())["project"]
for name, place in project["scripts"].items():
    module, call = place.split(":")
    script = pathlib.Path(sys.argv[2], name)
    script.write_text("#!/usr/bin/env python3\nimport sys\n"
                      f"from {module} import {call}\nsys.exit({call}())\n")
    script.chmod(0o755)
END

mkdir "$root/DEBIAN"
cat > "$root/DEBIAN/control" << END
Package: nukwashe
Version: $version
Architecture: $(dpkg --print-architecture)
Maintainer: Nukwashe maintainers <maintainers@users.noreply.nukwashe.example>
Depends: libc6 (>= ${library:-2})
Recommends: python3 (>= 3.11)
Section: net
Priority: optional
Description: Distributed Objects, proved
 Replays networks of nodes whose objects send one another messages, serves nodes as processes, and
 weaves their records into one schedule. The program was built from proved sources; that this file
 holds that program is not proved. Nodes in Python and programs that copy and paste come with it.
END
find "$root" -type d -exec chmod 755 {} +
chmod -R a+rX,go-w "$root"
mkdir -p "$folder"
dpkg-deb --root-owner-group --build "$root" "$folder" > /dev/null
echo "$folder/nukwashe_${version}_$(dpkg --print-architecture).deb"
