#!/usr/bin/env bash
# tap.sh [PINGS]: two network namespaces, each with a TAP device, and the link between them. It
# pings across, 20,000 times by default, and runs iperf3 if it is installed. Everything is removed
# at the end. It needs root, /dev/net/tun, and ../crates/ivshm_c/out/libivshm_c.a.
set -u
here=$(cd "$(dirname "${BASH_SOURCE[0]}")" && pwd) || exit 2
pings=${1:-20000}
out=520192 mtu=9000
folder=$(mktemp -d) || exit 2
shared=$(mktemp -d /dev/shm/ivshm-tap-XXXXXX) || exit 2
region=$shared/region
peers=()

cleanup() {
  [ "${#peers[@]}" = 0 ] || kill "${peers[@]}" 2>/dev/null
  wait
  ip netns del "ivshm-a-$$" 2>/dev/null
  ip netns del "ivshm-b-$$" 2>/dev/null
  rm -rf "$folder" "$shared"
}
trap cleanup EXIT

cc -std=c11 -O2 -Wall -Wextra -Werror -o "$folder/tap" "$here/tap.c" "$here/heap.c" "$here/../crates/ivshm_c/out/libivshm_c.a" || exit 2
for peer in a b; do
  space=ivshm-$peer-$$
  { ip netns add "$space" && ip -n "$space" tuntap add dev tap0 mode tap && ip -n "$space" link set tap0 mtu 1500; } || exit 2
  ip -n "$space" link set lo up
  ip -n "$space" addr add "10.77.0.$([ "$peer" = a ] && echo 1 || echo 2)/24" dev tap0
  ip netns exec "$space" "$folder/tap" "$region" "$([ "$peer" = a ] && echo 0 || echo 1)" "$out" "$mtu" tap0 &
  peers+=($!)
  ip -n "$space" link set tap0 up
done
a="ip netns exec ivshm-a-$$" b="ip netns exec ivshm-b-$$"
sleep 1
bad=0
$a ping -q -c 3 10.77.0.2 || bad=1
$a ping -q -c 500 -i 0.002 -s 1400 10.77.0.2 || bad=1
$b ping -q -f -c "$pings" 10.77.0.1 | tee "$folder/ping"
grep -q " 0% packet loss" "$folder/ping" || bad=1
if command -v iperf3 >/dev/null; then
  for reverse in '' -R; do
    $b iperf3 -s -1 -D >/dev/null
    sleep 0.5
    # shellcheck disable=SC2086 # an empty word is none
    $a iperf3 -c 10.77.0.2 -t 5 $reverse | tail -n 4
  done
fi
kill "${peers[@]}"
for peer in "${peers[@]}"; do wait "$peer" || bad=1; done
peers=()
exit "$bad"
