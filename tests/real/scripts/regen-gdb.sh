#!/bin/bash
# Makes the little-endian traces again with gdb and gdbserver on x86-64. Usage: regen-gdb.sh FOLDER
# Needs gdb, gdbserver and a gcc that can build 32-bit programs. Times and some register bytes differ from the kept files.
set -eu
here=$(cd "$(dirname "$0")" && pwd)
mkdir -p "$1"
cd "$1"
flags="-g -O0 -static -nostdlib -ffreestanding -fno-stack-protector -fno-pic -no-pie -fcf-protection=none"
cp "$here/fs.c" . # compiled here so that the debug information has a relative name
gcc $flags -o fs64 fs.c
gcc -m32 $flags -o fs32 fs.c

# run NAME LIMIT PROGRAM: what gdb does with the program, from standard input; `limit` is how often the subject loops
run() {
    local name=$1 limit=$2 program=$3 port=$((23000 + RANDOM % 2000)) server
    env -i "$(command -v gdbserver)" --once localhost:$port "./$program" >"$name.server.log" 2>&1 &
    server=$!
    for _ in $(seq 50); do
        grep -qs Listening "$name.server.log" && break
        sleep 0.1
    done
    {
        printf 'set pagination off\nset confirm off\nset sysroot /nonexistent\n'
        printf 'target remote localhost:%s\nset var limit = %s\n' $port "$limit"
        cat
        echo kill
    } >"$name.gdb"
    timeout 120 gdb -nx -batch -x "$name.gdb" "./$program" >"$name.log" 2>&1 || echo "$name: gdb failed, see $name.log"
    wait $server 2>/dev/null || true
}

# address NAME: where a symbol of the program stands
address() { printf %x "0x$(nm fs64 | awk -v name="$1" '$3 == name { print $1 }')"; }

# go: a run to its end; still: one that is still tracing when it is saved; filling: more frames than the buffer holds
go=$'break done\ntstart\ncontinue\ntstop\ntstatus'
still=$'break done\ntstart\ncontinue\ntstatus'
filling=$'set trace-buffer-size 20000\ntrace work\nactions\ncollect $regs\ncollect counter\nend'
run empty 3 fs64 <<X
trace work
tstart
tstop
tsave empty.tf
X
run bare 3 fs64 <<X
trace work
$go
tsave bare.tf
X
run regs 3 fs64 <<X
trace work
actions
collect \$regs
end
$go
tsave regs.tf
X
run mem 3 fs64 <<X
trace work
actions
collect counter, big
collect buf
collect nodes[0]
end
$go
tsave mem.tf
X
run tsv 3 fs64 <<X
tvariable \$n = 5
tvariable \$neg = -7
trace work
actions
collect \$n
teval \$n = \$n + 1
collect \$n
teval \$neg = \$neg - counter * 1000000007
collect \$neg
collect \$trace_timestamp
end
$go
tsave tsv.tf
X
run step 2 fs64 <<X
tvariable \$n
trace step_me
actions
collect \$regs
collect i
while-stepping 4
collect \$regs, counter
teval \$n = \$n + 1
collect \$n
end
end
$go
tsave step.tf
X
# gdb merges every `collect \$regs` of one tracepoint into one R block
run tworegs-merged 2 fs64 <<X
set default-collect \$regs
trace step_me
actions
collect \$regs
collect \$rax
collect counter
collect \$regs
collect counter
end
$go
tsave tworegs-merged.tf
X
# a memory read that fails leaves an M block of zeros; the trace still runs when it is saved
run badmem 3 fs64 <<X
trace work
actions
collect counter
collect *(long*)8
collect big
end
$still
tsave badmem.tf
X
run passcount 9 fs64 <<X
trace work
passcount 2
actions
collect i
end
$still
tsave passcount.tf
X
# the buffer fills: late frames lack their R block, the last has no data
run full 400 fs64 <<X
$filling
$still
tsave full.tf
X
# a circular buffer that wrapped: gdbserver hands out a broken frame
run circular 400 fs64 <<X
set circular-trace-buffer on
$filling
$go
tsave circular.tf
X
run i386 5 fs32 <<X
tvariable \$n = -1
trace work
actions
collect \$regs
collect i, big, buf[0]@20
teval \$n = \$n * 3
collect \$n
end
$go
tsave i386.tf
X
# packets given by hand: two R blocks in a frame, R behind M and V, tracepoints 7, 300 and 32767
work=$(address work)
step=$(address step_me)
done=$(address done)
counter=$(address counter)
run raw 3 fs64 <<X
maint packet QTinit
maint packet QTDV:2:fffffffffffffffe:0:6e
maint packet QTDP:7:$work:E:0:0-
maint packet QTDP:-7:$work:M-1,$counter,4-
maint packet QTDP:-7:$work:X00000008,2c00022e00022927-
maint packet QTDP:-7:$work:R07ffffffffffffffffffffffffffffffffffffff-
maint packet QTDP:-7:$work:X0000000C,2c000222010216402d000227-
maint packet QTDP:-7:$work:X00000008,2c00022e00022927-
maint packet QTDP:-7:$work:R07ffffffffffffffffffffffffffffffffffffff
maint packet QTDP:12c:$step:E:0:0-
maint packet QTDP:-12c:$step:M-1,$counter,0
maint packet QTDP:7fff:$done:E:0:0-
maint packet QTDP:-7fff:$done:M-1,$counter,4
maint packet QTStart
break *done+14
continue
maint packet QTStop
tstatus
tsave raw.tf
X
# tracepoint 65536 is stored as number 0
run zeronum 3 fs64 <<X
maint packet QTinit
maint packet QTDP:9:$step:E:0:0-
maint packet QTDP:-9:$step:M-1,$counter,4
maint packet QTDP:10000:$work:E:0:0
maint packet QTStart
break done
continue
maint packet QTStop
tstatus
tsave zeronum.tf
X
# tsave with a trace file as target fails half way: no frames and no end mark
gdb -nx -batch -ex 'file fs64' -ex 'target tfile tsv.tf' -ex 'tsave resave.tf' >resave.log 2>&1 || true
ls -l ./*.tf
