#!/usr/bin/env bash
# Tries the commands of docs/RUNNING.md as they stand on the page, in their order, with a package that is made of the program.
#
#   tests/running.sh      the variable IFDB names another program than crates/ifdb/out/ifdb
#
# It is root's. The commands see this machine's files through an overlay, whatever they write is dropped at the end, and they have a network of
# their own. Those that end in `# systemd` need systemd as process 1, and it does by hand what they would do. Exit statuses: 0 all ended
# well, 1 one didn't, 69 nothing was tried: this isn't root, or something that the page wants isn't there.
set -euo pipefail
readonly NOT_HERE=69
readonly PAGE=docs/RUNNING.md

not_here() {
  echo "running: nothing was tried: $*" >&2
  exit $NOT_HERE
}

# ---- Inside, where the page's commands are tried

await() { # COMMAND..
  for _ in {1..600}; do
    if "$@" 2>/dev/null; then return; fi
    sleep 0.1
  done
  return 1
}

is_reached() { (: <"/dev/tcp/127.0.0.1/$1"); }

# What the unit does, without its fences.
start_service() {
  install -d -o ifdb -g ifdb -m 700 /var/lib/ifdb
  (
    set -a
    # shellcheck source=/dev/null
    . /etc/ifdb/host.conf
    exec setpriv --reuid=ifdb --regid=ifdb --clear-groups --no-new-privs /usr/lib/ifdb/host
  ) >>/root/service.log 2>&1 &
  service=$!
  await is_reached 7070
}

stop_service() {
  kill "$service"
  wait "$service" || (($? == 143))
}

by_hand() { # COMMAND
  case $1 in
    'systemctl enable --now ifdb' | 'systemctl start ifdb') start_service ;;
    'systemctl stop ifdb') stop_service ;;
    'systemctl enable --now stunnel@ifdb') stunnel /etc/stunnel/ifdb.conf >/root/stunnel.log 2>&1 & ;;
    'systemctl status ifdb') kill -0 "$service" ;;
    *) false ;;
  esac
}

try_page() { # PAGE
  local line status passed=0
  while IFS= read -r line; do
    status=0
    case $line in
      *' # systemd') by_hand "${line% # systemd}" || status=$? ;;
      *) eval "$line" </dev/null || status=$? ;;
    esac
    if ((status != 0)); then
      echo "running: FAILED with status $status: $line"
      tail -n 20 /root/*.log
      return 1
    fi
    echo "running: ok: $line"
    passed=$((passed + 1))
  done < <(sed -n 's/^    //p' "$1")
  echo "running: $passed passed, 0 failed"
}

if [ "${1:-}" = --inside ]; then
  cd /root
  set +e # (try_page looks at each status)
  try_page "$2"
  exit
fi

# ---- Outside

cd "$(dirname "${BASH_SOURCE[0]}")/.."
program=$(realpath -m -- "${IFDB:-crates/ifdb/out/ifdb}")
[ "$(id -u)" = 0 ] || not_here "this isn't root"
for wanted in unshare chroot dpkg-deb ip nft stunnel openssl curl python3; do
  command -v $wanted >/dev/null || not_here "$wanted isn't on the path"
done
[ -x "$program" ] || not_here "there is no program $program; ./ifdb build makes it"
grep -qw overlay /proc/filesystems || not_here "this system has no overlays"

work=$(mktemp -d)
trap 'rm -rf "$work"' EXIT
DPKG_DEB_COMPRESSOR_TYPE=none tools/package "$work/package" "$program" >/dev/null
mkdir "$work/over"
export PAGE work
export PATH=/usr/sbin:/usr/bin:/sbin:/bin
# shellcheck disable=SC2016 # (the shell inside reads the variables)
unshare --mount --net --pid --fork --kill-child bash -euc '
  over=$work/over
  mount -t tmpfs tmpfs "$over"
  mkdir "$over/upper" "$over/work" "$over/root"
  mount -t overlay overlay -o "lowerdir=/,upperdir=$over/upper,workdir=$over/work" "$over/root"
  mount --rbind /dev "$over/root/dev"
  mount -t proc proc "$over/root/proc"
  ip link set lo up
  cp "$work"/package/*.deb tests/running.sh "$PAGE" "$over/root/root"
  chroot "$over/root" bash /root/running.sh --inside "/root/$(basename "$PAGE")"
'
