#!/usr/bin/env bash
# Makes the Debian package of a program that is built: packaging/build.sh [PROGRAM [FOLDER]]
# PROGRAM is scimd as `rt ci` or `rt run` leaves it (crates/scimd/out/scimd); its bytes are packed as they are. The
# package comes into FOLDER (packaging/out), and the last line is its path. The same files and the same program give the
# same package, byte for byte. Needs dpkg-dev and python3.
set -euo pipefail
umask 022
here="$(realpath "$(dirname "$0")")"
program="$(realpath "${1:-$here/../crates/scimd/out/scimd}")"
folder="$(realpath --canonicalize-missing "${2:-$here/out}")"
cd "$here"
version="$(dpkg-parsechangelog --file changelog --show-field Version)"
SOURCE_DATE_EPOCH="$(dpkg-parsechangelog --file changelog --show-field Timestamp)"
export SOURCE_DATE_EPOCH
stage="$(mktemp -d)"
root="$stage/debian/tiqolwach"
trap 'rm -r "$stage"' EXIT

# The version is written in the changelog and in the program's source, and they are the same.
check_version() {
  local source built
  source="$(sed -n 's/^pub const VERSION: &str = "\(.*\)";$/\1/p' ../crates/scim_command/src/command_line.rt)"
  built="$("$program" --version)"
  if [ "$source" != "$version" ] || [ "$built" != "scimd $version" ]; then
    echo "changelog: $version; command_line.rt: $source; program: $built" >&2
    return 1
  fi
}

# Puts a file into the package: MODE FILE PLACE
put() { install -D --mode "$1" "$2" "$root$3"; }

# Puts a file into the package, compressed: FILE PLACE
put_compressed() {
  gzip --no-name -9 < "$1" > "$stage/compressed"
  put 644 "$stage/compressed" "$2"
}

put_files() {
  local doc=/usr/share/doc/tiqolwach
  put 755 "$program" /usr/bin/scimd
  put 644 scimd.service /lib/systemd/system/scimd.service
  put 640 etc/policy.json /etc/scim/policy.json
  put 640 etc/tokens /etc/scim/tokens
  put 644 etc/scimd.default /etc/default/scimd
  put_compressed scimd.8 /usr/share/man/man8/scimd.8.gz
  put_compressed changelog $doc/changelog.gz
  put 644 debian/copyright $doc/copyright
  put 644 README.md $doc/README.md
  put 644 ../docs/OPERATING.md $doc/OPERATING.md
  put 644 ../docs/PROFILE.md $doc/PROFILE.md
  put 644 examples/nginx.conf $doc/examples/nginx.conf
  put 644 examples/stunnel.conf $doc/examples/stunnel.conf
  put 644 ../examples/policy.json $doc/examples/policy.json
  put 644 ../examples/policy-2.json $doc/examples/policy-2.json
  put 644 debian/lintian-overrides /usr/share/lintian/overrides/tiqolwach
}

# Writes what dpkg reads: the scripts, the list of conffiles, the checksums, and the fields with the libraries needed.
put_control() {
  local script
  for script in postinst prerm postrm; do put 755 debian/$script /DEBIAN/$script; done
  put 644 debian/conffiles /DEBIAN/conffiles
  (cd "$root" && find usr lib -type f -print0 | LC_ALL=C sort -z | xargs -0 md5sum) > "$stage/md5sums"
  put 644 "$stage/md5sums" /DEBIAN/md5sums
  cp debian/control changelog "$stage/debian"
  (
    cd "$stage"
    dpkg-shlibdeps debian/tiqolwach/usr/bin/scimd
    dpkg-gencontrol -Pdebian/tiqolwach
  )
}

check_version
python3 check_manual.py
put_files
put_control
find "$root" -exec touch --no-dereference --date="@$SOURCE_DATE_EPOCH" {} +
mkdir -p "$folder"
package="$folder/tiqolwach_${version}_amd64.deb"
dpkg-deb --root-owner-group -Zxz --threads-max=1 --build "$root" "$package" > /dev/null
echo "$package"
