#!/usr/bin/env bash
# Shows that the calls which crates/filedisk/src/system.rt notes are the ones that reach the system: runs a test over a real file, built by
# `rt test` in crates/disk_tests, under strace, and compares its calls with those that the test makes. Shows as well that `export` syncs its three texts and
# then their folder before it prints its line; the store is synced as it is opened. Needs strace and a built program.
#   tools/system_calls.sh [PROGRAM]
set -eu
. "$(dirname "${BASH_SOURCE[0]}")/store_of_six.sh"
test=$top/crates/disk_tests/out/disk_tests_tests
wanted=wanted
seen=seen

mkdir texts
cat > "$wanted" <<CALLS
fsync $folder/six.store
fsync $folder/texts/network.gr
fsync $folder/texts/landmarks.ss
fsync $folder/texts/closed.commands
fsync $folder/texts
write "ok 0\n"
CALLS
strace -f -y -e trace=fsync,write "$program" export six.store texts 2>&1 |
    sed -n -E 's/^fsync\([0-9]+<(.*)>\) += 0$/fsync \1/p; s/^write\(1<.*>, (".*"), .*/write \1/p' > "$seen"
if ! diff "$wanted" "$seen"; then
    echo "export makes other calls" >&2
    exit 1
fi
echo "export syncs the texts and their folder, and then prints its line"

# the file is 3; its folder, and then another handle of the file, is 4
cat > "$wanted" <<'CALLS'
flock(3, LOCK_EX|LOCK_NB) = 0
fsync(3) = 0
fsync(4) = 0
ftruncate(3, 7) = 0
pwrite64(3, "near", 4, 3) = 4
fsync(3) = 0
ftruncate(3, 4294967304) = 0
pwrite64(3, "far", 3, 4294967301) = 3
fsync(3) = 0
fdatasync(3) = 0
pread64(4, "\0near", 5, 2) = 5
pread64(4, "\0far", 5, 4294967300) = 4
pwrite64(4, "FAR", 3, 4294967301) = 3
pread64(3, "\0\0FAR", 5, 4294967299) = 5
pwrite64(3, "x", 1, 4294967302) = 1
fdatasync(3) = 0
pread64(4, "FxR", 5, 4294967301) = 3
pread64(3, "FxR", 5, 4294967301) = 3
pread64(3, "", 2, 4294967304) = 0
ftruncate(3, 4294967310) = 0
CALLS

# the loader's own reads come before the lock
strace -f -e trace=flock,fsync,fdatasync,ftruncate,pread64,pwrite64 "$test" real_files::offsets_of_a_real_file 2>&1 |
    sed -n '/^flock/,$p' | grep '^[a-z0-9]*(' | sed 's/) *= /) = /' > "$seen"

if diff "$wanted" "$seen"; then
    echo "the calls are those that are noted"
else
    echo "other calls were made" >&2
    exit 1
fi
