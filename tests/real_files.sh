#!/usr/bin/env bash
# Tries the built program on real files, as a shell starts it: what happens to its disk, its output and its lines where
# descriptors are closed, files are odd, another command holds them, or the program is ended.
#
#   tests/real_files.sh [PROGRAM]
#
# PROGRAM is crates/aurora/out/aurora where no word stands. It needs bash and coreutils, no root, and about half a
# minute. Cases of files without rights run as another user where this one is root (by setpriv), and cases of calls
# that fail or are interrupted under strace; where such a tool is missing its cases are left out, which is said.
# It prints a line a case and a closing line, and ends with 0 only if all cases hold.
set -u
PROGRAM=$(realpath "${1:-$(dirname "$0")/../crates/aurora/out/aurora}") || exit 2
[ -x "$PROGRAM" ] || { echo "no program at $PROGRAM"; exit 2; }
FOLDER=$(mktemp -d) || exit 2
trap 'rm -rf "$FOLDER"' EXIT
chmod 755 "$FOLDER"
cd "$FOLDER" || exit 2
TRIED=0
FAILED=0

# A command that must end by itself.
bounded() { timeout -k 1 120 "$@"; }

say_case() { # NAME FAULT: the case holds where FAULT is empty
  TRIED=$((TRIED + 1))
  if [ -z "$2" ]; then echo "ok: $1"; else FAILED=$((FAILED + 1)); echo "FAILED: $1: $2"; fi
}

# Bytes of 32-bit instruction words, the lowest byte first.
words() {
  local word
  for word in "$@"; do
    printf "\\x${word:6:2}\\x${word:4:2}\\x${word:2:2}\\x${word:0:2}"
  done
}

# Writes the letters from a to z, ROUNDS times, each by a write of WIDTH bytes (the letter and zeros), and exits with 0.
letters() { # ROUNDS WIDTH
  # AUIPC x11, 0; ADDI x11, x11, 128; ADDI x7, x0, ROUNDS; ADDI x6, x0, 123; ADDI x5, x0, 97
  words 00000597 08058593 "$(printf '%08x' $((0x393 | $1 << 20)))" 07b00313 06100293
  # SB x5, 0(x11); ADDI x10, x0, 1; ADDI x12, x0, WIDTH; ADDI x17, x0, 64; ECALL
  words 00558023 00100513 "$(printf '%08x' $((0x613 | $2 << 20)))" 04000893 00000073
  # ADDI x5, x5, 1; BNE x5, x6, -24; ADDI x7, x7, -1; BNE x7, x0, -36
  words 00128293 fe6294e3 fff38393 fc039ee3
  # ADDI x10, x0, 0; ADDI x17, x0, 93; ECALL
  words 00000513 05d00893 00000073
}

# Writes `hi` and a line feed, which stand behind it, and exits with 7.
hi() {
  words 000105b7 02458593 00100513 00300613 04000893 00000073 00700513 05d00893 00000073
  printf 'hi\n'
}

hi > p
letters 400 1 > long
letters 700 4 > wide
for name in p long wide; do printf 'aurora 1\nflat %s\n' "$name" > "m_$name"; done
head -c 65536 /dev/zero > zeros
printf 'hi\n' > hi_output
for _ in $(seq 400); do printf abcdefghijklmnopqrstuvwxyz; done > long_output
for _ in $(seq 700); do printf abcdefghijklmnopqrstuvwxyz; done | sed 's/./&\x00\x00\x00/g' > wide_output

new_files() { rm -rf d o; cp zeros d; }

differs() { cmp -s "$1" "$2" || echo "$1 differs from $2; "; }

# The fault of a command that ended with STATUS, and left its lines in the files line and error.
ended_as() { # STATUS WANTED LINE ERROR
  [ "$1" = "$2" ] || echo "status $1, not $2; "
  [ "$(cat line)" = "$3" ] || echo "it said '$(cat line)', not '$3'; "
  [ "$(cat error)" = "$4" ] || echo "it told '$(cat error)', not '$4'; "
}

# Runs a command, which must end with this status, this line and this line on standard error.
ends() { # STATUS LINE ERROR COMMAND..
  local status=$1 line=$2 error=$3
  shift 3
  bounded "$@" > line 2> error < /dev/null
  ended_as $? "$status" "$line" "$error"
}

# Closed descriptors: disk and output are as with none closed, and so is the status, but 16 where nothing can be said.
closed() { # MASK COMMAND..: bit N closes descriptor N
  local mask=$1
  shift
  : > line
  : > error
  case $mask in
    0) bounded "$@" < /dev/null > line 2> error ;;
    1) bounded "$@" <&- > line 2> error ;;
    2) bounded "$@" < /dev/null >&- 2> error ;;
    3) bounded "$@" <&- >&- 2> error ;;
    4) bounded "$@" < /dev/null > line 2>&- ;;
    5) bounded "$@" <&- > line 2>&- ;;
    6) bounded "$@" < /dev/null >&- 2>&- ;;
    7) bounded "$@" <&- >&- 2>&- ;;
  esac
}

closed_ends() { # MASK STATUS LINE COMMAND..
  local mask=$1 status=$2 line=$3 error=
  shift 3
  closed "$mask" "$@"
  local got=$?
  if [ $((mask & 2)) != 0 ]; then
    status=16
    line=
    [ $((mask & 4)) = 0 ] && error='aurora: standard output: Bad file descriptor'
  fi
  ended_as "$got" "$status" "$line" "$error"
}

new_files
bounded "$PROGRAM" run d o m_p > /dev/null
cp d done_disk
for mask in 0 1 2 3 4 5 6 7; do
  new_files
  fault=$(closed_ends "$mask" 0 'done epoch 1 turns 2 output 3' "$PROGRAM" run d o m_p
    differs d done_disk; differs o hi_output)
  say_case "run, closed descriptors by mask $mask" "$fault"
  fault=$(closed_ends "$mask" 7 'occupied epoch 1' "$PROGRAM" run d o m_p
    differs d done_disk; differs o hi_output)
  say_case "refused run, closed descriptors by mask $mask" "$fault"
  printf 'more' >> o
  cp o more_output
  fault=$(closed_ends "$mask" 15 'sink strange 7 from 0 to 3' "$PROGRAM" restore d o
    differs d done_disk; differs o more_output)
  say_case "refused restore, closed descriptors by mask $mask" "$fault"
  fault=$(closed_ends "$mask" 3 usage "$PROGRAM")
  say_case "no words, closed descriptors by mask $mask" "$fault"
done

# Odd disk files: nothing is written, and OUT is empty.
odd_disk() { # NAME DISK STATUS LINE ERROR
  local fault
  fault=$(ends "$3" "$4" "$5" "$PROGRAM" run "$2" o m_p; differs o /dev/null)
  say_case "DISK $1" "$fault"
}

new_files
odd_disk 'is absent' absent 9 'disk fault' 'aurora: absent: No such file or directory'
[ ! -e absent ] || say_case 'DISK that is absent' 'it was made'
mkdir folder
odd_disk 'is a folder' folder 9 'disk fault' 'aurora: folder: Is a directory'
mkfifo pipe
odd_disk 'is a pipe' pipe 9 'disk fault' 'aurora: pipe: Illegal seek'
odd_disk 'is a character device' /dev/null 14 'disk shape 0' ''
odd_disk 'is below a file' zeros/d 9 'disk fault' 'aurora: zeros/d: Not a directory'
head -c 65535 /dev/zero > short
odd_disk 'lacks a byte of 16 blocks' short 14 'disk shape 15' ''

# Odd output files. The first barrier is committed, and a restore with a file goes on from it.
odd_out() { # NAME OUT ERROR
  local fault
  new_files
  fault=$(ends 10 'sink fault' "$3" "$PROGRAM" run d "$2" m_p
    ends 0 'done epoch 1 turns 0 output 3' '' "$PROGRAM" restore d fresh; differs fresh hi_output)
  rm -f fresh
  say_case "OUT $1" "$fault"
}

odd_out 'is in a folder that is not there' none/o 'aurora: none/o: No such file or directory'
odd_out 'is a folder' folder 'aurora: folder: Is a directory'
odd_out 'is full' /dev/full 'aurora: /dev/full: No space left on device'
odd_out 'is the same file as DISK' d 'aurora: d: already in use'
ln -s d link
odd_out 'is a link to DISK' link 'aurora: link: already in use'
rm link

new_files
words 05d00893 00000513 00000073 > silent
printf 'aurora 1\nflat silent\n' > m_silent
fault=$(ends 0 'done epoch 1 turns 1 output 0' 'aurora: none/o: No such file or directory' "$PROGRAM" run d none/o m_silent)
say_case 'OUT can not be opened, and the program has no output' "$fault"
new_files
fault=$(ends 2 'spent epoch 3 turns 250 output 250' '' "$PROGRAM" run d o m_long --turns 250
  cp d before
  ends 15 'sink strange 0 from 200 to 250' 'aurora: none/o: No such file or directory' "$PROGRAM" restore d none/o
  differs d before)
say_case 'OUT can not be opened after output was released' "$fault"

# Standard output goes into a file of the command: nothing is opened, written or said.
for name in d o; do
  new_files
  cp done_disk d
  cp hi_output o
  bounded "$PROGRAM" restore d o >> $name 2> error < /dev/null
  status=$?
  : > line
  fault=$(ended_as $status 16 '' "aurora: $name: standard output goes there"; differs d done_disk; differs o hi_output)
  say_case "standard output goes into $name" "$fault"
done

new_files
fault=$(ends 0 'done epoch 1 turns 2 output 3' '' "$PROGRAM" run d /dev/null m_p; differs d done_disk)
say_case 'OUT is /dev/null' "$fault"
new_files
bounded "$PROGRAM" run d /dev/fd/3 m_p 3>&1 > line 2> error < /dev/null | cat > got
fault=$(ended_as "${PIPESTATUS[0]}" 0 'done epoch 1 turns 2 output 3' ''; differs got hi_output; differs d done_disk)
say_case 'OUT is a pipe' "$fault"
new_files
timeout 120 cat pipe > got &
fault=$(ends 0 'done epoch 1 turns 2 output 3' '' "$PROGRAM" run d pipe m_p)
wait $!
fault=$fault$(differs got hi_output; differs d done_disk)
say_case 'OUT is a named pipe' "$fault"
new_files
# Its only reader has ended before the program begins.
exec 3> >(:)
wait $!
fault=$(ends 10 'sink fault' 'aurora: /dev/fd/3: Broken pipe' "$PROGRAM" run d /dev/fd/3 m_p
  ends 0 'done epoch 1 turns 0 output 3' '' "$PROGRAM" restore d fresh; differs fresh hi_output)
exec 3>&-
rm -f fresh
say_case 'OUT is a pipe that nobody reads any more' "$fault"
new_files
bounded "$PROGRAM" run d o m_p > /dev/full 2> error < /dev/null
status=$?
: > line
fault=$(ended_as $status 16 '' 'aurora: standard output: No space left on device'; differs o hi_output; differs d done_disk)
say_case 'standard output is full' "$fault"

# Files of the manifest.
odd_file() { # NAME STATUS LINE ERROR MANIFEST
  local fault
  new_files
  fault=$(ends "$2" "$3" "$4" "$PROGRAM" run d o "$5"; differs d zeros; differs o /dev/null)
  say_case "$1" "$fault"
}

odd_file 'the manifest is absent' 18 'not built' 'aurora: absent: No such file or directory' absent
odd_file 'the manifest is a folder' 11 'files fault' 'aurora: folder: Is a directory' folder
printf 'aurora 1\nflat absent\n' > m_absent
odd_file 'the image is absent' 18 'not built' 'aurora: absent: No such file or directory' m_absent
printf 'aurora 1\nflat folder\n' > m_folder
odd_file 'the image is a folder' 11 'files fault' 'aurora: folder: Is a directory' m_folder

# Files without rights, as a user who has none beyond them.
as_user() { "$@"; }
can_be_user=yes
if [ "$(id -u)" = 0 ]; then
  if command -v setpriv > /dev/null && setpriv --reuid 65534 --regid 65534 --clear-groups test -x "$PROGRAM"; then
    as_user() { setpriv --reuid 65534 --regid 65534 --clear-groups "$@"; }
  else
    can_be_user=no
    echo 'left out: files without rights (no setpriv, or the program is out of reach of other users)'
  fi
fi
if [ $can_be_user = yes ]; then
  mkdir open
  chmod 777 open
  cp zeros open/d
  cp zeros open/locked_d
  : > open/locked_o
  cp m_p open/m
  cp m_p open/locked_m
  cp p open/p
  [ "$(id -u)" != 0 ] || chown -R 65534:65534 open
  chmod 444 open/locked_d open/locked_o
  chmod 0 open/locked_m
  AS_USER=$(declare -f as_user)
  user_ends() { # STATUS LINE ERROR WORDS..
    local status=$1 line=$2 error=$3
    shift 3
    (cd open && bounded bash -c "$AS_USER; as_user \"\$@\"" - "$PROGRAM" "$@") > line 2> error < /dev/null
    ended_as $? "$status" "$line" "$error"
  }
  fault=$(user_ends 9 'disk fault' 'aurora: locked_d: Permission denied' run locked_d o m)
  say_case 'DISK can only be read' "$fault"
  fault=$(user_ends 11 'files fault' 'aurora: locked_m: Permission denied' run d o locked_m; differs open/d zeros)
  say_case 'the manifest can not be read' "$fault"
  printf 'aurora 1\nflat p\n' > open/m
  fault=$(user_ends 10 'sink fault' 'aurora: locked_o: Permission denied' run d locked_o m)
  say_case 'OUT can only be read' "$fault"
  mkdir open/blind
  chmod 333 open/blind
  fault=$(user_ends 7 'occupied epoch 1' 'aurora: blind/o: Permission denied' run d blind/o m)
  say_case 'OUT is in a folder that can not be opened' "$fault"
fi

# Another command holds a file: it waits for the writer of a named pipe meanwhile.
hold() { # FILE WORDS..: starts a command that waits, once it has locked the file
  local inode
  timeout 120 "$PROGRAM" "${@:2}" > held_line 2> held_error < /dev/null &
  HOLDER=$!
  for _ in $(seq 1000); do
    inode=$(stat -c %i "$1" 2> /dev/null) && grep -q "FLOCK .*:$inode 0 EOF" /proc/locks && break
    sleep 0.05
  done
}

new_files
hold d run d pipe m_p
cp zeros other_d
fault=$(ends 9 'disk fault' 'aurora: d: already in use' "$PROGRAM" run d o m_p; differs d zeros; differs o /dev/null)
timeout 120 cat pipe > got
wait $HOLDER
fault=$fault$(ended=$?; [ $ended = 0 ] || echo "the first ended with $ended; "; differs got hi_output; differs d done_disk)
say_case 'DISK is held by another command' "$fault"
new_files
hold o run d o pipe
fault=$(ends 10 'sink fault' 'aurora: o: already in use' "$PROGRAM" run other_d o m_p; differs o /dev/null)
timeout 120 cp m_p pipe
wait $HOLDER
fault=$fault$(ended=$?; [ $ended = 0 ] || echo "the first ended with $ended; "; differs o hi_output; differs d done_disk)
say_case 'OUT is held by another command' "$fault"
fault=$(rm -f fresh; ends 0 'done epoch 1 turns 0 output 3' '' "$PROGRAM" restore other_d fresh; differs fresh hi_output)
rm -f fresh
say_case 'the refused command goes on with another OUT' "$fault"

# A limit of the shell on the size of files.
for signal in ignored fatal; do
  new_files
  if [ $signal = ignored ]; then
    (trap '' XFSZ; ulimit -f 64; bounded "$PROGRAM" run d o m_wide --every 1000 > line 2> error < /dev/null)
    fault=$(ended_as $? 10 'sink fault' 'aurora: o: File too large')
  else
    (ulimit -c 0; ulimit -f 64; bounded "$PROGRAM" run d o m_wide --every 1000 > line 2> error < /dev/null) 2> /dev/null
    status=$?
    fault=$([ $status = 153 ] || echo "status $status, not 153; ")
  fi
  fault=$fault$([ "$(stat -c %s o)" = 65536 ] || echo "o has $(stat -c %s o) bytes; "
    bounded "$PROGRAM" restore d o --every 1000 > line 2> error; status=$?
    [ $status = 0 ] || echo "restore: status $status, $(cat line error); "; differs o wide_output)
  say_case "a file size limit, its signal $signal" "$fault"
done

# SIGKILL at random moments: each time what was acknowledged goes on, and the output is that of an undisturbed run.
begin_long() {
  new_files
  fault=$fault$(ends 2 'spent epoch 1 turns 1 output 1' '' "$PROGRAM" run d o m_long --turns 1)
}

finish_long() {
  fault=$fault$(bounded "$PROGRAM" restore d o --every 1000 > line 2> error < /dev/null; status=$?
    [ $status = 0 ] || echo "at the end: status $status, $(cat line error); "; differs o long_output)
}

fault=
kills=0
bytes=0
begin_long
for _ in $(seq 100); do
  [ $kills = 50 ] && break
  "$PROGRAM" restore d o --every 1 --quantum 10 > line 2> error < /dev/null &
  sleep "$(printf '0.%03d' $((RANDOM % 300 + 20)))"
  # (the braces take what the shell says of a killed command)
  { kill -KILL $!; wait $!; } 2> /dev/null
  status=$?
  cmp -s -n "$(stat -c %s o)" o long_output || fault="${fault}kill $kills: the output is no beginning; "
  case $status in
    137) kills=$((kills + 1)) ;;
    # it ended first, on a fast machine
    0) bytes=$((bytes + $(stat -c %s o))); finish_long; begin_long ;;
    *) fault="${fault}kill $kills: status $status, $(cat line error); " ;;
  esac
done
bytes=$((bytes + $(stat -c %s o)))
finish_long
[ $kills = 50 ] || fault="$fault$kills were ended by SIGKILL; "
[ $bytes -gt 10 ] || fault="${fault}only $bytes bytes were out when the last one was ended; "
say_case "50 runs ended by SIGKILL and restored, $bytes bytes out by then" "$fault"

# Calls that fail or are interrupted, by strace.
if command -v strace > /dev/null && strace -o /dev/null true 2> /dev/null; then
  traced() { # NAME STATUS LINE ERROR FILE CALLS: a run in which these calls on the file end otherwise
    local name=$1 status=$2 line=$3 error=$4 fault
    new_files
    fault=$(ends "$status" "$line" "$error" strace -qq -o trace -P "$FOLDER$5" -e "inject=$6" "$PROGRAM" run d o m_p
      grep -q INJECTED trace || echo 'nothing was injected; ')
    if [ "$status" = 0 ]; then
      fault=$fault$(differs d done_disk; differs o hi_output)
    elif [ "$status" = 9 ]; then
      # whatever the failed call left, a run or a restore goes on
      fault=$fault$(bounded "$PROGRAM" run d o m_p > line 2> error < /dev/null; again=$?
        [ $again = 7 ] && { bounded "$PROGRAM" restore d o > line 2> error < /dev/null; again=$?; }
        [ $again = 0 ] || echo "again: status $again, $(cat line error); "; differs o hi_output)
    elif [ "$status" = 10 ]; then
      fault=$fault$(ends 0 'done epoch 1 turns 0 output 3' '' "$PROGRAM" restore d o; differs o hi_output)
    fi
    say_case "$name" "$fault"
  }
  ok='done epoch 1 turns 2 output 3'
  traced 'an interrupted read of the manifest' 0 "$ok" '' /m_p read:error=EINTR:when=1+2
  traced 'an interrupted read of the image' 0 "$ok" '' /p read:error=EINTR:when=1+2
  traced 'an interrupted read of the disk' 0 "$ok" '' /d pread64:error=EINTR:when=1+2
  traced 'an interrupted write of the disk' 0 "$ok" '' /d pwrite64:error=EINTR:when=1+2
  traced 'an interrupted sync of the disk' 0 "$ok" '' /d fdatasync:error=EINTR:when=1+2
  traced 'an interrupted lock of the disk' 0 "$ok" '' /d flock:error=EINTR:when=1+2
  traced 'an interrupted write of the output' 0 "$ok" '' /o write:error=EINTR:when=1+2
  traced 'an interrupted sync of the output' 0 "$ok" '' /o fsync:error=EINTR:when=1+2
  traced 'an interrupted lock of the output' 0 "$ok" '' /o flock:error=EINTR:when=1+2
  traced 'an interrupted write of the line' 0 "$ok" '' /line write:error=EINTR:when=1+2
  traced 'a disk that can not be locked' 9 'disk fault' 'aurora: d: No locks available' /d flock:error=ENOLCK
  traced 'a failed read of the disk' 9 'disk fault' 'aurora: d: Input/output error' /d pread64:error=EIO:when=1
  traced 'a failed write of the disk' 9 'disk fault' 'aurora: d: Input/output error' /d pwrite64:error=EIO:when=1
  traced 'a failed sync of the disk' 9 'disk fault' 'aurora: d: Input/output error' /d fdatasync:error=EIO:when=3
  traced 'a disk that can not be synced' 9 'disk fault' 'aurora: d: Invalid argument' /d fdatasync:error=EINVAL
  traced 'a failed write of the output' 10 'sink fault' 'aurora: o: Input/output error' /o write:error=EIO:when=1
  traced 'a failed sync of what was put' 10 'sink fault' 'aurora: o: Input/output error' /o fsync:error=EIO:when=2
  traced 'a failed sync at the opening of the output' 10 'sink fault' 'aurora: o: Input/output error' /o fsync:error=EIO:when=1
  traced 'a failed sync of the folder' 9 'disk fault' 'aurora: d: Input/output error' '' fsync:error=EIO:when=1
  traced 'a failed sync of the folder for the output' 10 'sink fault' 'aurora: o: Input/output error' '' fsync:error=EIO:when=2
  traced 'an output that can not be synced' 0 "$ok" '' /o fsync:error=EINVAL
  traced 'a failed read of the image' 11 'files fault' 'aurora: p: Input/output error' /p read:error=EIO:when=1
  new_files
  bounded strace -qq -o trace -e trace=fsync,fdatasync "$PROGRAM" run d o m_long --turns 5000 > line 2> error
  fault=$([ "$(cut -d' ' -f1-5 line)" = 'spent epoch 50 turns 5000' ] || echo "it said '$(cat line error)'; "
    disk=$(grep -c fdatasync trace) out=$(grep -c 'fsync(' trace)
    [ "$out" = 53 ] || echo "$out syncs of OUT and the folders, not 3 and one for each of 50 barriers; "
    [ "$disk" = 151 ] || echo "$disk syncs of the disk, not 1 and 3 for each of 50 barriers; ")
  say_case 'one sync of OUT for each release' "$fault"
else
  echo 'left out: calls that fail or are interrupted (no strace)'
fi

echo "$((TRIED - FAILED)) of $TRIED cases hold"
[ $FAILED = 0 ]
