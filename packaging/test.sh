#!/usr/bin/env bash
# Builds the package and tries it in a clean Debian 12 that systemd runs: packaging/test.sh [PROGRAM [BASE]]
# PROGRAM is as for build.sh. BASE is a folder that has the clean system, or gets it, for further runs; without it the
# system is made anew (some 100 MB from Debian's mirror) and removed. The system has no network but its own loopback.
# Prints a line for each step, and ends with status 1 at the first that fails.
# Run by hand, as root. Needs debootstrap, systemd-container, dpkg-dev and python3.
set -euo pipefail
here="$(realpath "$(dirname "$0")")"
work="$(mktemp -d)"
base="$(realpath --canonicalize-missing "${2:-$work/base}")"
container=

clean_up() {
  if [ -n "$container" ]; then
    kill "$container" 2> /dev/null || true
    wait "$container" || true
  fi
  rm -r --one-file-system "$work"
}
trap clean_up EXIT

# Builds the package of a program twice, and a copy of it with the next version.
build() {
  mkdir "$work/steps"
  "$here/build.sh" "$1" "$work/once" > "$work/log"
  "$here/build.sh" "$1" "$work/steps" > "$work/log"
  package="$(tail -n 1 "$work/log")"
  cmp "$work"/once/*.deb "$package"
  echo "ok: built twice, byte for byte the same: $(basename "$package")"
  if command -v lintian > /dev/null; then
    lintian --fail-on error,warning --allow-root "$package"
    echo "ok: lintian has no complaint"
  fi
  dpkg-deb --raw-extract "$package" "$work/next"
  sed -i 's/^Version: .*/&+1/' "$work/next/DEBIAN/control"
  dpkg-deb --root-owner-group --build "$work/next" "$work/steps/next.deb" > /dev/null
}

# Makes the clean system, unless it is there.
make_base() {
  if [ ! -e "$base/etc/debian_version" ]; then
    debootstrap --variant=minbase --include=systemd,systemd-sysv,nginx-light,stunnel4,curl,openssl bookworm "$base" \
      http://deb.debian.org/debian > "$work/log"
    echo "ok: made a clean system"
  fi
  cp -a "$base" "$work/system"
  cp "$here/test_steps.sh" "$work/steps/run"
}

# Runs a command in the container.
inside() {
  nsenter --target "$(pgrep --parent "$container")" --all --wdns=/ \
    env --ignore-environment PATH=/usr/sbin:/usr/bin:/sbin:/bin LC_ALL=C.UTF-8 DEBIAN_FRONTEND=noninteractive "$@"
}

# Starts the system in a container, and waits until systemd has started it.
boot() {
  systemd-nspawn --quiet --directory="$work/system" --machine=tiqolwach-test --boot --private-network --register=no \
    --keep-unit --bind-ro="$work/steps:/mnt" --console=pipe < /dev/null > "$work/console" 2>&1 &
  container=$!
  for _ in $(seq 120); do
    if [ "$(inside systemctl is-system-running 2> /dev/null)" = running ]; then
      echo "ok: systemd runs the system"
      return
    fi
    sleep 0.5
  done
  cat "$work/console" >&2
  return 1
}

build "${1:-$here/../crates/scimd/out/scimd}"
make_base
boot
inside bash /mnt/run "/mnt/$(basename "$package")" /mnt/next.deb
echo "all steps passed"
