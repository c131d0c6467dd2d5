#!/bin/sh
# Makes a Debian package of the built program and the office's files, with dpkg-deb alone.
#
#     packaging/build.sh [PROGRAM [FOLDER]]     (crates/tldreg/out/tldreg and out)
#
# The package has the program, its man page, the pages, the units and scripts of examples/office, and the user tldreg.
# It starts nothing: docs/OFFICE.md, from 'The policy', says what comes next. A removal leaves the registry's files.
set -eu
cd "$(dirname "$0")/.."
program=${1:-crates/tldreg/out/tldreg} folder=${2:-out}
version=$("$program" --version)
version=${version#tldreg }
tree=$(mktemp -d)
trap 'rm -rf "$tree"' EXIT
chmod 755 "$tree"

put() { # put MODE FILE PLACE: a file of this tree, with the package's own paths in it
    mkdir -p "$tree/$(dirname "$3")"
    sed -e 's,/usr/local/bin,/usr/bin,g' -e 's,/usr/local/sbin,/usr/sbin,g' -e 's,/usr/local/share,/usr/share,g' \
        -e 's,/etc/systemd/system,/usr/lib/systemd/system,g' "$2" > "$tree/$3"
    chmod "$1" "$tree/$3"
}

install -D -m 755 "$program" "$tree/usr/bin/tldreg"
put 755 examples/client.py usr/bin/tldreg-client
for it in tld tldreg-zone; do put 755 "examples/office/$it" "usr/sbin/$it"; done
for it in examples/office/*.service examples/office/*.timer; do put 644 "$it" "usr/lib/systemd/system/${it##*/}"; done
for it in docs/*.md CHANGELOG.md LICENSE SECURITY.md; do put 644 "$it" "usr/share/doc/tldreg/${it##*/}"; done
for it in docs/pictures/*.svg; do put 644 "$it" "usr/share/doc/tldreg/pictures/${it##*/}"; done
for it in examples/policy.toml examples/audit.sql examples/first.script examples/office/*.conf examples/office/*.cfg \
    examples/office/own.zone examples/office/registrars.cnf; do
    put 644 "$it" "usr/share/doc/tldreg/examples/${it##*/}"
done
mkdir -p "$tree/usr/share/man/man1" "$tree/DEBIAN"
gzip -9n < packaging/tldreg.1 > "$tree/usr/share/man/man1/tldreg.1.gz"
for it in postinst prerm; do install -m 755 "packaging/$it" "$tree/DEBIAN/$it"; done
cat > "$tree/DEBIAN/control" <<END
Package: tldreg
Version: $version
Architecture: $(dpkg --print-architecture)
Maintainer: the authors of tldreg <root@localhost>
Installed-Size: $(du -sk "$tree/usr" | cut -f1)
Depends: libc6, adduser
Recommends: systemd, python3, sqlite3
Suggests: stunnel4 | haproxy, nginx-light | nginx, nsd | bind9
Section: net
Priority: optional
Description: registry of a top-level domain, proved
 The shared database of the names below a top-level domain. Registrars send
 commands as JSON in EPP frames and keep prepaid accounts. The public reads
 RDAP. Name servers take the text of a zone. Isolation between registrars,
 the rules, and what a crash leaves are proved of the program.
END
mkdir -p "$folder"
dpkg-deb --root-owner-group --build "$tree" "$folder/tldreg_${version}_$(dpkg --print-architecture).deb"
