#!/usr/bin/env bash
# Cuts the power 25 times under a run whose disk and output lie on an ext4 file system of their own, and restores each
# run: its output must be that of an undisturbed one.
#
#   tests/power_cut.sh [PROGRAM]
#
# PROGRAM is crates/aurora/out/aurora where no word stands. It needs root, loop devices, ext4, mkfs.ext4 and perl, 64 MB
# for temporary files, and a few minutes; it unmounts and removes what it made. It prints a line a cut and a closing
# line, and ends with 0 only if every run went on.
#
# A cut is ext4's shutdown that flushes nothing: from that moment on nothing that stands in memory alone reaches the
# image. The program is ended, and the file system is mounted anew, by its journal. A cut at an odd number comes at a
# random moment while the program runs, one at an even number at once after it has ended with `spent`. Neither the disk
# file nor the output file is synced by anybody but the program.
set -u
PROGRAM=$(realpath "${1:-$(dirname "$0")/../crates/aurora/out/aurora}") || exit 2
[ -x "$PROGRAM" ] || { echo "no program at $PROGRAM"; exit 2; }
[ "$(id -u)" = 0 ] || { echo 'this needs root'; exit 2; }
for tool in mkfs.ext4 losetup mount umount perl timeout; do
  command -v $tool > /dev/null || { echo "this needs $tool"; exit 2; }
done
CUTS=25
FOLDER=$(mktemp -d) || exit 2
PLACE=$FOLDER/place
DEVICE=
RUNNER=

clean_up() {
  [ -z "$RUNNER" ] || kill -KILL "$RUNNER" 2> /dev/null
  # (a command that is still under way ends within its own minute)
  for _ in $(seq 310); do
    mountpoint -q "$PLACE" || break
    umount "$PLACE" 2> /dev/null || sleep 0.2
  done
  [ -z "$DEVICE" ] || losetup -d "$DEVICE" 2> /dev/null
  mountpoint -q "$PLACE" || rm -rf "$FOLDER"
}
trap clean_up EXIT
trap 'exit 1' INT TERM
mkdir "$PLACE"

words() {
  local word
  for word in "$@"; do
    printf "\\x${word:6:2}\\x${word:4:2}\\x${word:2:2}\\x${word:0:2}"
  done
}

# Writes the letters from a to z 400 times, each by a write of its own, and exits with 0:
# AUIPC x11, 0; ADDI x11, x11, 128; ADDI x7, x0, 400; ADDI x6, x0, 123; ADDI x5, x0, 97; SB x5, 0(x11);
# ADDI x10, x0, 1; ADDI x12, x0, 1; ADDI x17, x0, 64; ECALL; ADDI x5, x5, 1; BNE x5, x6, -24; ADDI x7, x7, -1;
# BNE x7, x0, -36; ADDI x10, x0, 0; ADDI x17, x0, 93; ECALL
words 00000597 08058593 19000393 07b00313 06100293 00558023 00100513 00100613 04000893 00000073 \
  00128293 fe6294e3 fff38393 fc039ee3 00000513 05d00893 00000073 > "$FOLDER/p"
printf 'aurora 1\nflat p\n' > "$FOLDER/m"
for _ in $(seq 400); do printf abcdefghijklmnopqrstuvwxyz; done > "$FOLDER/wanted"
cd "$FOLDER" || exit 2

aurora() { timeout -k 1 60 "$PROGRAM" "$@" 2> error; }

new_place() {
  rm -f image
  truncate -s 64M image
  mkfs.ext4 -q -F image && mount -o loop image "$PLACE" && head -c 65536 /dev/zero > "$PLACE/d"
}

# The request of EXT4_IOC_SHUTDOWN, and its flag 2: the journal isn't flushed.
shut_down() { perl -e 'open my $p, "<", $ARGV[0] or die $!; my $how = pack("L", 2); ioctl($p, 0x8004587d, $how) or die $!' "$PLACE"; }

cut_power() {
  shut_down || return 1
  if [ -n "$RUNNER" ]; then
    { kill -KILL "$RUNNER"; wait "$RUNNER"; } 2> /dev/null
    RUNNER=
  fi
  umount "$PLACE" && mount -o loop image "$PLACE"
}

# Runs until some output is there, and for a random time more.
run_on() {
  "$PROGRAM" run place/d place/o m --every 1 --quantum 10 > line 2> error < /dev/null &
  RUNNER=$!
  for _ in $(seq 400); do
    [ -s place/o ] && break
    sleep 0.02
  done
  sleep "0.$((RANDOM % 9))$((RANDOM % 9 + 1))"
}

# What is wrong once the power is back, or nothing.
fault_after() {
  local out line status
  out=$(stat -c %s place/o) || { echo 'OUT is gone'; return; }
  cmp -s -n "$out" place/o wanted || { echo "OUT's $out bytes are no beginning of the output"; return; }
  line=$(aurora restore place/d place/o --every 10000)
  status=$?
  [ $status = 0 ] || { echo "status $status, $line"; return; }
  cmp -s place/o wanted || echo 'the output is not that of an undisturbed run'
}

RESTORED=0
for cut in $(seq $CUTS); do
  new_place || { echo 'no file system could be made'; exit 2; }
  if [ $((cut % 2)) = 1 ]; then
    run_on
    moment="while it ran, after $(stat -c %s place/o) bytes"
  else
    moment="after: $(aurora run place/d place/o m --turns $((RANDOM % 5000 + 200)))"
  fi
  cut_power || { echo 'the power could not be cut'; exit 2; }
  kept=$(stat -c %s place/o 2> /dev/null)
  fault=$(fault_after)
  if [ -z "$fault" ]; then RESTORED=$((RESTORED + 1)); fi
  echo "cut $cut $moment: ${kept:-no} bytes are there, ${fault:-restored}"
  umount place
done
echo "$CUTS cuts, $RESTORED restored"

# What else needs root: a disk on a block device, and an output on a full file system.
ODD=0
head -c 65536 /dev/zero > blocks
DEVICE=$(losetup -f --show blocks) || exit 2
line=$(aurora run "$DEVICE" o m --turns 30)
[ $? = 2 ] && line=$(aurora restore "$DEVICE" o --every 10000) && cmp -s o wanted && ODD=$((ODD + 1))
echo "a block device as DISK: $line"
mount -t tmpfs -o size=8k none place
head -c 65536 /dev/zero > d
line=$(aurora run d place/o m)
[ $? = 10 ] && [ "$(cat error)" = 'aurora: place/o: No space left on device' ] && ODD=$((ODD + 1))
echo "OUT on a full file system: $line, $(cat error), $(stat -c %s place/o) bytes"
mount -o remount,size=1m place
line=$(aurora restore d place/o)
[ $? = 0 ] && cmp -s place/o wanted && ODD=$((ODD + 1))
echo "after room was made: $line"
[ $RESTORED = $CUTS ] && [ $ODD = 3 ]
