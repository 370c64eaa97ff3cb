#!/usr/bin/env bash
# The command line on real files: what the built program writes and how it ends, against text that was
# written by hand. A case that fails prints a line; the last line counts the cases.
set -u
export LC_ALL=C
top=$(cd "$(dirname "${BASH_SOURCE[0]}")/.." && pwd)
txboard=$top/crates/txboard/out/txboard
p1=$top/examples/p1.img
passed=0 failed=0
work=$(mktemp -d) || exit 1
trap 'rm -rf "$work"' EXIT

# told STATUS: standard error has what a call that ended so says there: one line after 2, 4 and 5, else nothing
told() {
    local line
    case $1 in
    2) line='txboard: "*": ?*' ;;
    4) line='txboard: the output could not be written' ;;
    5) line='txboard: out of memory' ;;
    *) [ ! -s "$work/err" ]; return ;;
    esac
    [ "$(wc -l <"$work/err")" -eq 1 ] && [[ $(<"$work/err") == $line ]]
}
# expect NAME STATUS TEXT COMMAND..: the command ends with the status, writes the text (its last newline is
# left out here) to standard output, and what such a call says to standard error
expect() {
    local name=$1 status=$2 text=$3 got
    shift 3
    "$@" >"$work/out" 2>"$work/err" </dev/null
    got=$?
    printf '%s' "${text:+$text$'\n'}" >"$work/want"
    if [ "$got" -eq "$status" ] && cmp -s "$work/out" "$work/want" && told "$status"; then
        passed=$((passed + 1))
    else
        failed=$((failed + 1))
        printf 'FAILED %s: status %s, due is %s; wrote %q, and as an error %q\n' "${name//$'\n'/ }" "$got" "$status" \
            "$(head -c 400 "$work/out")" "$(head -c 200 "$work/err")"
    fi
}
# says LINE COMMAND..: the command writes this one line to standard error, and nothing to standard output
says() {
    local line=$1
    shift
    expect "says: $line" 0 "$line" says_alone "$@"
}
says_alone() { "$@" 2>&1 >"$work/said"; [ ! -s "$work/said" ]; }

skipped() { printf 'skipped: %s\n' "$1"; }
# from FOLDER COMMAND..: the command, called in the folder
from() { (cd "$1" && shift && "$@"); }

# the program is built on first use; without words it prints its usage
"$top/txboard" >"$work/usage" </dev/null
if [ ! -x "$txboard" ]; then
    echo "FAILED: the program was not built"
    echo "0 passed, 1 failed"
    exit 1
fi

# ---- The text of `hart`

zeros4='00000000 00000000 00000000 00000000'
# hart_text STEPS END PC X5 [SP GP]: all other registers are 0, but x10 is the start entry at 80000080
hart_text() {
    printf 'hart steps %s end %s\npc %s\n' "$1" "$2" "$3"
    printf 'regs 00000000 %s %s 00000000 %s %s 80000080 %s %s %s %s %s 00000000' \
        "${5:-800001e0}" "${6:-800000a0}" "$4" "$zeros4" "$zeros4" "$zeros4" "$zeros4" "$zeros4" "$zeros4"
}
p1_text=$(hart_text 1 count 80000084 00000007)

expect 'p1: one step' 0 "$p1_text" "$txboard" hart "$p1" 1
expect 'p1: no step' 0 "$(hart_text 0 count 80000080 00000000)" "$txboard" hart "$p1" 0
expect 'p1: past its code' 0 "$(hart_text 1 'fault 1' 80000084 00000007)" "$txboard" hart "$p1" 2
expect 'p1: the most steps' 0 "$(hart_text 1 'fault 1' 80000084 00000007)" "$txboard" hart "$p1" 100000000
expect 'p2: up to its call' 0 "$p1_text" "$txboard" hart "$top/examples/p2.img" 1
expect 'p2: its call' 0 "$(hart_text 1 call 80000084 00000007)" "$txboard" hart "$top/examples/p2.img" 2
expect 'p2b: up to its branch' 0 "$p1_text" "$txboard" hart "$top/examples/p2b.img" 1
expect 'p2b: its branch' 0 "$(hart_text 2 count 80000084 00000007)" "$txboard" hart "$top/examples/p2b.img" 2

# ---- Images: each rule of the preamble, just broken and just kept

# preamble FIELD=HEX..: p1's preamble with these words changed
preamble() {
    local -A words=([id]=4d4f4455 [major]=6 [minor]=0 [words]=20 [app]=1 [props]=3 [shell]=80 [start]=80
        [stop]=0 [start_prio]=a [start_stack]=100 [callback]=0 [callback_prio]=0 [callback_stack]=0
        [code_size]=84 [data_size]=40)
    local change field
    for change in "$@"; do words[${change%%=*}]=${change#*=}; done
    for field in id major minor words app props shell start stop start_prio start_stack callback \
        callback_prio callback_stack code_size data_size; do
        word "${words[$field]}"
    done
    for ((field = 0; field < 16; field++)); do word 0; done
}
# image FIELD=HEX..: the same, and then p1's one instruction
image() { preamble "$@"; word 00700293; }
# coded 'HEX..' FIELD=HEX..: the preamble with the size of this code, and then the code
coded() {
    local code=($1) instruction size
    printf -v size '%x' $((128 + 4 * ${#code[@]}))
    preamble code_size="$size" "${@:2}"
    for instruction in "${code[@]}"; do word "$instruction"; done
}
# word HEX: its four bytes, the lowest first
word() {
    local bytes
    printf -v bytes '\\x%02x\\x%02x\\x%02x\\x%02x' \
        $((0x$1 & 255)) $((0x$1 >> 8 & 255)) $((0x$1 >> 16 & 255)) $((0x$1 >> 24 & 255))
    printf "$bytes"
}

image >"$work/made.img"
expect 'the images made here begin as p1' 0 '' cmp "$work/made.img" "$p1"

while IFS='|' read -r changes line; do
    image $changes >"$work/made.img"
    expect "refused: $changes" 3 "refused image 0: $line" "$txboard" hart "$work/made.img" 1
done <<'ROWS'
id=4d4f4456 major=9|BadId 4d4f4456
id=5544f4d4|BadId 5544f4d4
major=0|BadMajor 00000000
major=7|BadMajor 00000007
words=1f|BadSize 0000001f
props=1|BadProps 00000001
props=fffffffd|BadProps fffffffd
code_size=80|BadCode 00000080
code_size=88|BadCode 00000088
code_size=85|BadCode 00000085
data_size=100001|BadData 00100001
shell=7c|BadEntry 0 0000007c
shell=82|BadEntry 0 00000082
shell=400|BadEntry 0 00000400
start=84|BadEntry 1 00000084
stop=7c|BadEntry 2 0000007c
callback=81|BadEntry 3 00000081
start_prio=20|BadPrio 0 00000020
callback=80 callback_stack=100 callback_prio=20|BadPrio 1 00000020
start_stack=3f|BadStack 0 0000003f
start_stack=10001|BadStack 0 00010001
callback=80 callback_stack=3f|BadStack 1 0000003f
callback=80 callback_stack=10001|BadStack 1 00010001
shell=0 start_prio=20 start_stack=0|BadEntry 0 00000000
ROWS

while IFS='|' read -r changes sp; do
    image $changes >"$work/made.img"
    expect "run: $changes" 0 "$(hart_text 1 count 80000084 00000007 "$sp")" "$txboard" hart "$work/made.img" 1
done <<'ROWS'
major=1 minor=ffffffff app=ffffffff props=ffffffff|800001e0
stop=80 start_prio=1f|800001e0
callback=80 callback_prio=1f callback_stack=10000|800001e0
callback_prio=20 callback_stack=1|800001e0
data_size=0|800001a0
data_size=100000|801001a0
start_stack=40|80000120
start_stack=41|80000130
start_stack=10000|800100e0
ROWS

{ image code_size=85; printf '\0'; } >"$work/made.img"
expect 'a length that 4 does not divide' 3 'refused image 0: BadCode 00000085' "$txboard" hart "$work/made.img" 1
{ image code_size=100000; head -c $((0x100000 - 132)) /dev/zero; } >"$work/made.img"
expect 'the largest image' 0 "$(hart_text 1 count 80000084 00000007 80100140 80100000)" \
    "$txboard" hart "$work/made.img" 1
printf '\0' >>"$work/made.img"
expect 'one byte more' 3 'refused image 0 too large' "$txboard" hart "$work/made.img" 1
head -c 127 "$p1" >"$work/made.img"
expect 'one byte too short' 3 'refused image 0: Short 127' "$txboard" hart "$work/made.img" 1
: >"$work/made.img"
expect 'an empty file' 3 'refused image 0: Short 0' "$txboard" hart "$work/made.img" 1
expect 'a device that ends at once' 3 'refused image 0: Short 0' "$txboard" hart /dev/null 1
expect 'a device without end' 3 'refused image 0 too large' "$txboard" hart /dev/zero 1

# ---- The edges of the regions

# The data region of these images is 800000a0 up to 800001e0: gp (x3) is its base and sp (x2) its end, after
# which a callback's stack lies where there is a callback. The code begins at 80000080; 73 is ECALL, and 13 does
# nothing. A row: what it is, the changes of the preamble, the code, the steps, the end, pc, x5, and sp where it
# is another.
while IFS='|' read -r name changes code steps end pc x5 sp; do
    coded "$code" $changes >"$work/made.img"
    expect "edge: $name" 0 "$(hart_text "$steps" "$end" "$pc" "$x5" "$sp")" "$txboard" hart "$work/made.img" 9
done <<'ROWS'
the first byte: sb, lb||18000293 00518023 00018283 73|3|call|8000008c|ffffff80
the first byte: sb, lbu||18000293 00518023 0001c283 73|3|call|8000008c|00000080
the first half: sh, lh||123482b7 00519023 00019283 73|3|call|8000008c|ffff8000
the first half: sh, lhu||123482b7 00519023 0001d283 73|3|call|8000008c|00008000
the first word: sw, lw||89abd2b7 0051a023 00000293 0001a283 73|4|call|80000090|89abd000
the first word: sw, and lb of its last byte||89abd2b7 0051a023 00318283 73|3|call|8000008c|ffffff89
the last byte: sb, lb||18000293 fe510fa3 fff10283 73|3|call|8000008c|ffffff80
the last byte: sb, lbu||18000293 fe510fa3 fff14283 73|3|call|8000008c|00000080
the last half: sh, lh||123482b7 fe511f23 ffe11283 73|3|call|8000008c|ffff8000
the last half: sh, lhu||123482b7 fe511f23 ffe15283 73|3|call|8000008c|00008000
the last word: sw, lw||89abd2b7 fe512e23 00000293 ffc12283 73|4|call|80000090|89abd000
the last word: sb of its last byte, lw||18000293 fe510fa3 ffc12283 73|3|call|8000008c|80000000
one before: lb||fff18283|0|fault 5|80000080|00000000
one before: lhu, misaligned||fff1d283|0|fault 4|80000080|00000000
one before: lh||ffe19283|0|fault 5|80000080|00000000
one before: lw, misaligned||ffe1a283|0|fault 4|80000080|00000000
one before: lw||ffc1a283|0|fault 5|80000080|00000000
one before: sb||fe518fa3|0|fault 7|80000080|00000000
one before: sh, misaligned||fe519fa3|0|fault 6|80000080|00000000
one before: sh||fe519f23|0|fault 7|80000080|00000000
one before: sw, misaligned||fe51af23|0|fault 6|80000080|00000000
one before: sw||fe51ae23|0|fault 7|80000080|00000000
one past: lb||00010283|0|fault 5|80000080|00000000
one past: lbu||00014283|0|fault 5|80000080|00000000
one past: lh||00011283|0|fault 5|80000080|00000000
one past: lhu||00015283|0|fault 5|80000080|00000000
one past: lw||00012283|0|fault 5|80000080|00000000
one past: lh, half in, misaligned||fff11283|0|fault 4|80000080|00000000
one past: lw, half in, misaligned||ffe12283|0|fault 4|80000080|00000000
one past: lw, all out, misaligned||00112283|0|fault 4|80000080|00000000
one past: sb||00510023|0|fault 7|80000080|00000000
one past: sh||00511023|0|fault 7|80000080|00000000
one past: sw||00512023|0|fault 7|80000080|00000000
one past: sh, half in, misaligned||fe511fa3|0|fault 6|80000080|00000000
one past: sw, half in, misaligned||fe512f23|0|fault 6|80000080|00000000
a callback: the last byte|callback=80 callback_stack=40|18000293 02510fa3 03f10283 73|3|call|8000008c|ffffff80
a callback: lb past it|callback=80 callback_stack=40|04010283|0|fault 5|80000080|00000000
a callback's stack of 41: the last word|callback=80 callback_stack=41|04c12283|1|fault 1|80000084|00000000
a callback's stack of 41: sw past it|callback=80 callback_stack=41|04512823|0|fault 7|80000080|00000000
no callback, and so no stack for it|callback_stack=40|00012283|0|fault 5|80000080|00000000
a breakpoint: ebreak||00100073|0|fault 3|80000080|00000000
a stack of 41: sw to its last word|start_stack=41|fe512e23|1|fault 1|80000084|00000000|80000130
a stack of 41: lb past it|start_stack=41|00010283|0|fault 5|80000080|00000000|80000130
most stack: last byte|callback=80 callback_stack=10000|000102b7 002282b3 fff28283|3|fault 1|8000008c|00000000
most stack: past it|callback=80 callback_stack=10000|000102b7 002282b3 00028283|2|fault 5|80000088|800101e0
the most data: sw to its last word|data_size=100000|fe512e23|1|fault 1|80000084|00000000|801001a0
the most data: lb past it|data_size=100000|00010283|0|fault 5|80000080|00000000|801001a0
no data: sb to its first byte|data_size=0|00518023|1|fault 1|80000084|00000000|800001a0
no data: lb before it|data_size=0|fff18283|0|fault 5|80000080|00000000|800001a0
the code: lw of its first instruction||fe01a283|1|fault 1|80000084|fe01a283
the code: lhu of its first instruction||fe01d283|1|fault 1|80000084|0000d283
the code: lbu of its last byte||fe31c283|1|fault 1|80000084|000000fe
the code: lb past it||fe418283|0|fault 5|80000080|00000000
the code: lw past it||fe41a283|0|fault 5|80000080|00000000
the code: lw of the image's first word||f601a283|1|fault 1|80000084|4d4f4455
the code: lb before the image||f5f18283|0|fault 5|80000080|00000000
the code: lw before the image||f5c1a283|0|fault 5|80000080|00000000
the code: sb to its last byte||fe5181a3|0|fault 7|80000080|00000000
the code: sh to its first instruction||fe519023|0|fault 7|80000080|00000000
the code: sw to its first instruction||fe51a023|0|fault 7|80000080|00000000
the code: sw to its first instruction, misaligned||fe51a0a3|0|fault 6|80000080|00000000
the code: sw to the image's first word||f651a023|0|fault 7|80000080|00000000
code up to the data: lbu of its last byte||13 13 13 13 13 13 13 fff1c283|8|fault 1|800000a0|000000ff
code up to the data: sb to its last byte||13 13 13 13 13 13 13 fe518fa3|7|fault 7|8000009c|00000000
the last address: lb||fff00283|0|fault 5|80000080|00000000
the last address: lhu, misaligned||fff05283|0|fault 4|80000080|00000000
the last address: lw that wraps, misaligned||ffd02283|0|fault 4|80000080|00000000
the last address: lw||ffc02283|0|fault 5|80000080|00000000
the last address: sb||fe500fa3|0|fault 7|80000080|00000000
the last address: sh, misaligned||fe501fa3|0|fault 6|80000080|00000000
the last address: sw that wraps, misaligned||fe502f23|0|fault 6|80000080|00000000
the last address: sw||fe502e23|0|fault 7|80000080|00000000
the address 0: lw||00002283|0|fault 5|80000080|00000000
the address 0: sw||00502023|0|fault 7|80000080|00000000
the last byte of RAM: lbu||804002b7 fff2c283|1|fault 5|80000084|80400000
no instruction||00000000|0|fault 2|80000080|00000000
a jump to itself||0000006f|9|count|80000080|00000000
one past: sw, a byte out, misaligned||fe512ea3|0|fault 6|80000080|00000000
the end of RAM: sw||804002b7 0052a023|1|fault 7|80000084|80400000
a jump to the data||00018067|1|fault 1|800000a0|00000000
a jump into an instruction||fe218067|0|fault 0|80000080|00000000
a jump to the image's first word||f6018067|1|fault 2|80000000|00000000
a jump before the image||f5c18067|1|fault 1|7ffffffc|00000000
a jump to the last address||ffc00067|1|fault 1|fffffffc|00000000
a jump to the address 0||00000067|1|fault 1|00000000|00000000
ROWS

# P1 with another instruction: the registers stay
while IFS='|' read -r code steps end; do
    coded "$code" >"$work/made.img"
    expect "p1 with $code" 0 "$(hart_text "$steps" "$end" 80000080 00000000)" "$txboard" hart "$work/made.img" 3
done <<'ROWS'
0000006f|3|count
00000000|0|fault 2
ROWS

# ---- Files that can't be read

long=$(head -c 100000 /dev/zero | tr '\0' a)
expect 'no such file' 2 '' "$txboard" hart "$work/none.img" 1
expect 'no such folder' 2 '' "$txboard" hart "$work/none/p1.img" 1
expect 'a folder' 2 '' "$txboard" hart "$work" 1
expect 'below a file' 2 '' "$txboard" hart "$p1/p1.img" 1
expect 'an empty name' 2 '' "$txboard" hart '' 1
# a blank belongs to a name, also at an end of it
for name in ' p1.img' 'p1.img ' ' ' $'p1.img\n' $'\tp1.img'; do
    expect "a name with a blank at an end, '$name': none there" 2 '' "$txboard" hart "$work/$name" 1
    cp "$p1" "$work/$name"
    expect "a name with a blank at an end, '$name'" 0 "$p1_text" from "$work" "$txboard" hart "$name" 1
    rm "$work/$name"
done
expect 'an empty name of a board' 2 '' "$txboard" check ''
expect 'a name of 100,000 bytes' 2 '' "$txboard" hart "$long" 1

none='No such file or directory (os error 2)'
says "txboard: \"none.img\": $none" from "$work" "$txboard" hart none.img 1
says "txboard: \"\": $none" "$txboard" hart '' 1
says "txboard: \"none.img \": $none" from "$work" "$txboard" hart 'none.img ' 1
says "txboard: \"two\\nlines\": $none" from "$work" "$txboard" hart $'two\nlines' 1
says 'txboard: ".": Is a directory (os error 21)' from "$work" "$txboard" hart . 1
says "txboard: \"${long:0:5000}\": File name too long (os error 36)" "$txboard" hart "${long:0:5000}" 1
without_errors() { "$txboard" hart "$work/none.img" 1 2>&-; [ $? -eq 2 ]; }
expect 'a standard error that is closed' 0 '' without_errors

# permission doesn't bind root, who runs the case as nobody
cp "$txboard" "$work/txboard" && cp "$p1" "$work/secret.img" && chmod 755 "$work" && chmod 0 "$work/secret.img"
as_other=()
if [ -r "$work/secret.img" ]; then as_other=(setpriv --reuid=65534 --regid=65534 --clear-groups); fi
if "${as_other[@]}" "$work/txboard" </dev/null >"$work/out" 2>&1; [ $? -eq 1 ]; then
    expect 'a file without permission' 2 '' "${as_other[@]}" "$work/txboard" hart "$work/secret.img" 1
else
    skipped 'a file without permission: this is root, and setpriv cannot make it nobody'
fi

# a pipe gives what is there, so the image comes in two short reads
in_two_parts() {
    { head -c 50 "$p1"; sleep 0.1; tail -c +51 "$p1"; } | "$txboard" hart /dev/stdin 1
}
if [ -e /dev/stdin ]; then
    expect 'a pipe with two short reads' 0 "$p1_text" in_two_parts
else
    skipped 'a pipe with two short reads: there is no /dev/stdin'
fi

# ---- Boards

one_text='module 0 one code 80000000 132 data 800000a0 320
ok'
expect 'the example board' 0 "$one_text" from "$top" "$txboard" check examples/one.board.toml
expect 'its image is found from the caller' 2 '' from "$top/examples" "$txboard" check one.board.toml

# board NAME STATUS TEXT: the board on standard input, in a folder with the images below
boards=$work/boards
mkdir "$boards" && cp "$p1" "$boards/p1.img" && cp "$p1" "$boards/a name.img"
{ preamble code_size=e0 data_size=80; head -c 96 /dev/zero; } >"$boards/sensor.img"
{ preamble code_size=d8; head -c 88 /dev/zero; } >"$boards/control.img"
{ preamble code_size=9c; head -c 28 /dev/zero; } >"$boards/telemetry.img"
{ preamble code_size=e0 data_size=600; head -c 96 /dev/zero; } >"$boards/data.img"
image major=7 >"$boards/major.img"
image data_size=1000 >"$boards/large_data.img"
head -c 100 "$p1" >"$boards/short.img"
head -c $((0x100001)) /dev/zero >"$boards/large.img"
board() {
    cat >"$boards/board.toml"
    expect "board: $1" "$2" "$3" from "$boards" "$txboard" check board.toml
}
# modules RAM IMAGE..: the text of a board with a module for each image
modules() {
    local number=0
    printf 'ram = %s\nsteps = 0\n' "$1"
    shift
    for image in "$@"; do
        printf '[[module]]\nname = "m%s"\nimage = "%s"\n' "$number" "$image"
        number=$((number + 1))
    done
}

board 'three modules' 0 'module 0 sensor code 80000000 224 data 800000e0 384
module 1 control code 80000260 216 data 80000340 320
module 2 telemetry code 80000480 156 data 80000520 320
ok' <<'BOARD'
ram = 1048576
steps = 20000

[[module]]
name = "sensor"
image = "sensor.img"
start = true

[[module]]
name = "control"
image = "control.img"
start = true

[[module]]
name = "telemetry"
image = "telemetry.img"
start = true

[[show]]
module = "control"
offset = 8
words = 1
BOARD

while IFS='|' read -r name status text ram images; do
    board "$name" "$status" "$text" < <(modules "$ram" $images)
done <<'ROWS'
no image of the name|2||4096|p1.img none.img
an image in no folder|2||4096|none/p1.img
a folder for an image|2||4096|.
a broken image|3|refused image 1: BadMajor 00000007|4096|p1.img major.img
a short image|3|refused image 0: Short 100|4096|short.img
an empty image|3|refused image 0: Short 0|4096|/dev/null
a large image|3|refused image 1 too large|4096|p1.img large.img
an image without end|3|refused image 0 too large|4096|/dev/zero
the first of two broken images|3|refused image 0: BadMajor 00000007|4096|major.img short.img
all images are read before one is tested: a large one|3|refused image 1 too large|4096|major.img large.img
all images are read before one is tested: none there|2||4096|major.img none.img
the first of two that cannot be read: a large one|3|refused image 0 too large|4096|large.img none.img
the first of two that cannot be read: none there|2||4096|none.img large.img
no room for the third|3|refused room 2|4096|data.img data.img data.img
no room, but a broken image comes first|3|refused image 3: BadMajor 00000007|4096|data.img data.img data.img major.img
the board comes before its images|3|refused board: ram|100|none.img
no module|3|refused board: module|4096|
ROWS

board 'two that just fit' 0 'module 0 m0 code 80000000 224 data 800000e0 1792
module 1 m1 code 800007e0 224 data 800008c0 1792
ok' < <(modules 4096 data.img data.img)
board 'three that fit' 0 'module 0 m0 code 80000000 224 data 800000e0 1792
module 1 m1 code 800007e0 224 data 800008c0 1792
module 2 m2 code 80000fc0 224 data 800010a0 1792
ok' < <(modules 8192 data.img data.img data.img)
board 'seventeen modules' 3 'refused board: module' < <(modules 16777216 $(printf 'p1.img %.0s' {1..17}))
for name in ' p1.img' 'p1.img '; do
    board "an image with a blank at an end, '$name': none there" 2 '' < <(modules 4096 "$name")
done
cp "$p1" "$boards/p1.img "
board 'a name with a blank at its end' 0 "$one_text" <<'BOARD'
ram = 4096
steps = 0
[[module]]
name = "one"
image = "p1.img "
BOARD
board 'a name with a blank' 0 "$one_text" <<'BOARD'
ram = 4096
steps = 0
[[module]]
name = "one"
image = "a name.img"
BOARD

while IFS='|' read -r name line text; do
    board "$name" 3 "refused board: $line" < <(printf 'ram = 4096\nsteps = 0\n'; printf "$text")
done <<'ROWS'
a key twice|not toml|ram = 4096
no value|not toml|module
bytes that are no text|not toml|# \xff
a wrong field of a module|module[0].image|[[module]]\nname = "one"\n
a name of another shape|module[0].name|[[module]]\nname = "o n e"\nimage = "p1.img"\n
an unknown key|module[0].size|[[module]]\nname = "one"\nimage = "p1.img"\nsize = 1\n
a key of controls and blanks|module[0].a.b..c|[[module]]\nname = "one"\nimage = "p1.img"\n"a b\\u001B\\u0007c" = 1\n
a key that is no ASCII|module[0]...|[[module]]\nname = "one"\nimage = "p1.img"\n"é" = 1\n
a share|share|share = []\n[[module]]\nname = "one"\nimage = "p1.img"\n
ROWS

# a device of these lines, on a board of one module
device() { printf 'ram = 4096\nsteps = 0\n[[module]]\nname = "one"\nimage = "p1.img"\n[[device]]\nname = "d"\n'; printf "$1"; }
board 'a device that makes ticks' 0 "$one_text" < <(device 'action = "tick"\nscript = [4294967295]\nrepeat = 2\n')
while IFS='|' read -r name field lines; do
    board "$name" 3 "refused board: device[0].$field" < <(device "$lines")
done <<'ROWS'
ticks with a target|target|action = "tick"\ntarget = "one"\nscript = []\n
ticks with an empty target|target|action = "tick"\ntarget = ""\nscript = []\n
ticks with a target that is no text|target|action = "tick"\ntarget = 1\nscript = []\n
ticks with a target and no script|target|action = "tick"\ntarget = "one"\n
ticks without a script|script|action = "tick"\n
an action of another case|action|action = "Tick"\nscript = []\n
no action|action|script = []\n
a resume without a target|target|action = "resume"\nscript = []\n
an action that is not built: semaphore|action|action = "semaphore"\ntarget = "one"\nscript = []\n
an action that is not built: events|action|action = "events"\ntarget = "one"\nscript = []\n
an action that is not built: queue|action|action = "queue"\ntarget = "one"\nscript = []\n
an action that is not built: start|action|action = "start"\ntarget = "one"\nscript = []\n
an action that is not built: stop|action|action = "stop"\ntarget = "one"\nscript = []\n
ROWS

board 'a key of 60,000 bytes' 3 "refused board: module[0].${long:0:60000}" \
    < <(modules 4096 p1.img; printf '%s = 1\n' "${long:0:60000}")
board 'brackets without end' 3 'refused board: not toml' < <(printf 'ram = '; head -c 60000 /dev/zero | tr '\0' '[')
board 'a board of 65,536 bytes' 0 'module 0 m0 code 80000000 132 data 800000a0 320
ok' < <({ modules 4096 p1.img; printf '#%s\n' "$long"; } | head -c 65536)
board 'one byte more' 3 'refused board too large' \
    < <({ modules 4096 p1.img; printf '#%s\n' "$long"; } | head -c 65537)
board 'an empty board' 3 'refused board: ram' </dev/null
expect 'a board without end' 3 'refused board too large' "$txboard" check /dev/zero
expect 'no such board' 2 '' "$txboard" check "$work/none.toml"
expect 'a folder for a board' 2 '' "$txboard" check "$work"
expect 'an image for a board' 3 'refused board: not toml' "$txboard" check "$p1"

# ---- Outputs that can't be written

to_full() { "$txboard" "$@" >/dev/full; }
to_none() { "$txboard" "$@" >&-; }
with_output_alone() { "$txboard" "$@" <&- 2>&-; }
# the reader may have gone before the program's last write, or not
first_line() {
    "$txboard" "$@" 2>"$work/said" | head -n 1
    local status=${PIPESTATUS[0]}
    [ "$status" -eq 0 ] || [ "$status" -eq 4 ]
}
# the reader of the fifo has gone before the program begins
to_gone() {
    rm -f "$work/fifo" && mkfifo "$work/fifo" || return
    (exec 3<"$work/fifo") &
    exec 4>"$work/fifo"
    wait $!
    "$txboard" "$@" >&4 4>&-
    local status=$?
    exec 4>&-
    return "$status"
}
if [ -w /dev/full ]; then
    expect 'a full device: the text' 4 '' to_full hart "$p1" 1
    expect 'a full device: the usage line' 4 '' to_full
    expect 'a full device: a refusal' 4 '' to_full hart /dev/null 1
else
    skipped 'a full device: there is no /dev/full'
fi
expect 'a closed output: the text' 4 '' to_none hart "$p1" 1
expect 'a closed output: the text of a board' 4 '' from "$top" to_none check examples/one.board.toml
expect 'a closed output: the refusal of a board' 4 '' to_none check /dev/null
expect 'a closed output: the usage line' 4 '' to_none
expect 'a closed output: a refusal' 4 '' to_none hart /dev/null 1
expect 'a closed output, and nothing to write' 2 '' to_none hart "$work/none.img" 1
expect 'a reader that has gone: the text' 4 '' to_gone hart "$p1" 1
expect 'a reader that has gone: the usage line' 4 '' to_gone
expect 'a reader of one line' 0 'hart steps 1 end count' first_line hart "$p1" 1
expect 'no standard input and no standard error' 0 "$p1_text" with_output_alone hart "$p1" 1

# ---- Memory: with the most RAM a board takes more than these 32,000 KiB of addresses, and with little RAM less. Room for
# each message that 256 queues may have is 18 MB of them

in_little() { (ulimit -v 32000 && "$txboard" "$@"); }
modules 16777216 p1.img >"$boards/board.toml"
printf 'S 1\n' >"$work/log"
expect 'memory: the RAM of a board' 5 '' from "$boards" in_little replay board.toml "$work/log"
expect 'memory: a check needs no RAM' 0 "module 0 m0 code 80000000 132 data 800000a0 320
ok" from "$boards" in_little check board.toml
expect 'memory: a smaller board' 0 "$(cat "$top/examples/two.expected")" \
    from "$top" in_little replay examples/two.board.toml examples/two.log

# ---- Logs

three_steps='S 3
report
events steps 3 irqs 0 ticks 0 clock 0
running -
held
ready
waits begun 0 satisfied 0 timedout 0 aborted 0 deleted 0 gone 0
module 0 one state 3 queued 0 dropped 0
fault 0 thread 0 cause 1 pc 80000084
end'
# booted STEPS: the report of the example board as it was booted
booted() {
    printf 'report\nevents steps %s irqs 0 ticks 0 clock 0\nrunning 0\nheld\nready 0\n' "$1"
    printf 'waits begun 0 satisfied 0 timedout 0 aborted 0 deleted 0 gone 0\nmodule 0 one state 1 queued 0 dropped 0\n'
    printf 'thread 0 module 0 start state 0 priority 10 10 threshold 10 10 slice 0 0 pc 80000080\n'
    hart_text 0 count 80000080 00000000 | tail -n 1
    printf '\nend'
}
# log NAME STATUS TEXT: the log on standard input, on the example board
log() {
    cat >"$work/log"
    expect "log: $1" "$2" "$3" from "$top" "$txboard" replay examples/one.board.toml "$work/log"
}
log 'three steps' 0 "$three_steps" <<<'S 3'
log 'steps side by side' 3 'refused log: line 2' <<<$'S 1\nS 2'
log 'a device that the board has not' 3 'refused log: line 1' <<<'I 0 00000000'
log 'the empty log' 0 "$(booted 0)" </dev/null
log 'a last line without its end' 3 'refused log: line 2' < <(printf 'S 1\nS 2')
log 'an empty line' 3 'refused log: line 1' <<<''
log 'a leading zero' 3 'refused log: line 1' <<<'S 01'
log 'no step' 3 'refused log: line 1' <<<'S 0'
log 'a return before the end' 3 'refused log: line 1' < <(printf 'S 1\r\n')
log 'a blank after it' 3 'refused log: line 1' <<<'S 1 '
log 'one step too many' 3 'refused log: line 1' <<<'S 100000001'
log 'a number of 100,000 digits' 3 'refused log: line 1' <<<"S ${long//a/1}"
log 'a header' 3 'refused log: line 1' <<<'V 2 1 0'
log 'bytes that are no text' 3 'refused log: line 1' < <(head -c 100 "$p1")
log '4,194,304 bytes' 3 'refused log: line 1' < <(head -c 4194304 /dev/zero)
log 'one byte more' 3 'refused log too large' < <(head -c 4194305 /dev/zero)
printf 'I 1 0000000a\n' >"$work/log"
expect 'log: the second of one device' 3 'refused log: line 1' \
    from "$top" "$txboard" replay examples/two.board.toml "$work/log"
expect 'no such log' 2 '' from "$top" "$txboard" replay examples/one.board.toml "$work/none.log"
expect 'a folder for a log' 2 '' from "$top" "$txboard" replay examples/one.board.toml "$work"
expect 'a log without end' 3 'refused log too large' from "$top" "$txboard" replay examples/one.board.toml /dev/zero

# a device that the board has not, and the last one that it has
expect 'log: a device past the last' 3 'refused log: line 2' from "$top" "$txboard" replay examples/two.board.toml \
    <(printf 'S 1\nI 1 00000000\n')

# the board and its images are refused before the log is read, and the log before the boot
replay() { expect "replay: $1" "$2" "$3" from "$boards" "$txboard" replay board.toml "$work/log"; }
printf 'S 1\nS 2\n' >"$work/log"
modules 100 p1.img >"$boards/board.toml"
replay 'the board comes first' 3 'refused board: ram'
modules 4096 none.img >"$boards/board.toml"
replay 'then the images' 2 ''
modules 4096 major.img >"$boards/board.toml"
replay 'then the log' 3 'refused log: line 2'
modules 4096 data.img data.img data.img >"$boards/board.toml"
replay 'the log, where there is no room' 3 'refused log: line 2'
modules 4096 major.img >"$boards/board.toml"
printf 'S 1\n' >"$work/log"
replay 'then the preambles' 3 'refused image 0: BadMajor 00000007'
modules 4096 data.img data.img data.img >"$boards/board.toml"
replay 'then room' 3 'refused room 2'
printf 'S 0\n' >"$work/log"
replay 'the log before room' 3 'refused log: line 1'
printf 'S 3\n' >"$work/log"
modules 4096 large_data.img >"$boards/board.toml"
replay 'no room for the first' 3 'refused room 0'

if [ -w /dev/full ]; then
    expect 'a full device: a session' 4 '' from "$top" to_full replay examples/two.board.toml examples/two.log
fi
expect 'a closed output: a session' 4 '' from "$top" to_none replay examples/two.board.toml examples/two.log
expect 'a reader that has gone: a session' 4 '' from "$top" to_gone replay examples/two.board.toml examples/two.log
expect 'a reader of one line of a session' 0 'S 20' from "$top" first_line replay examples/two.board.toml examples/two.log

# ---- Sessions: a board, a log, and the whole text that is due, as tests/sessions/README.md describes

session() { expect "session: $1" 0 "$(cat "$2/$5")" from "$2" "$txboard" replay "$3" "$4"; }
for log in "$top"/tests/sessions/*/*.log; do
    folder=$(dirname "$log") name=$(basename "$log" .log)
    session "$(basename "$folder")/$name" "$folder" board.toml "$name.log" "$name.expected"
done
# As many ticks as a log may have, on a module that sleeps ten at a time: it calls for its first sleep in 3 steps and for each other
# one in 7, which is after 65,530 ticks for the last time; at the end four ticks of that sleep are left.
mkdir "$work/ticks" && cp "$top"/tests/sessions/telemetry/{board.toml,telemetry.img} "$work/ticks"
{
    echo 'S 3'
    for ((tick = 1; tick <= 65536; tick++)); do
        echo 'I 0 00000000'
        if ((tick % 10 == 0)); then echo 'S 7'; fi
    done
} >"$work/ticks/log"
{
    cat "$work/ticks/log"
    printf 'report\nevents steps 45874 irqs 65536 ticks 65536 clock 65536\nrunning -\nheld\nready\n'
    printf 'waits begun 6554 satisfied 0 timedout 6553 aborted 0 deleted 0 gone 0\nmodule 0 one state 1 queued 0 dropped 0\n'
    printf 'thread 0 module 0 start state 4 priority 12 12 threshold 12 12 slice 0 0 pc 8000008c\n'
    printf 'regs 00000000 800001e0 800000a0 00000000 00000000 00001999 00000000 00000000 00000000 0000000a %s %s' "$zeros4" \
        '00000000 00000000 00000015'
    printf ' 00000000 00000000 %s %s %s\n' "$zeros4" "$zeros4" "$zeros4"
    printf 'device 0 tick taken 65536 last 00\nshow 0 00001999\nend\n'
} >"$work/ticks/expected"
session '65,536 ticks' "$work/ticks" board.toml log expected
session 'examples/asm' "$top" examples/two.board.toml examples/two.log examples/two.expected
session 'examples/c' "$top" examples/c/board.toml examples/c/session.log examples/c/session.expected
sed '/^report$/,$d' "$top/examples/two.expected" >"$work/log"
session 'the log that came back, once more' "$top" examples/two.board.toml "$work/log" examples/two.expected
if command -v python3 >"$work/out"; then
    expect 'limits: the session is made' 0 '' python3 "$top/tests/limits.py" "$work/limits"
    session 'the limits of a board' "$work/limits" board.toml log expected
else
    skipped 'the limits of a board: there is no python3'
fi
if command -v riscv64-unknown-elf-as >"$work/out" && command -v make >"$work/out"; then
    mkdir -p "$work/again/examples" "$work/again/tests"
    cp -r "$top/examples/asm" "$work/again/examples" && cp -r "$top/tests/sessions" "$work/again/tests"
    expect 'the images of the sessions are their sources' 0 '' make -s -C "$work/again/tests/sessions" compare
    expect 'the images of examples/asm are their sources' 0 '' make -s -B -C "$work/again/examples/asm"
    for name in meter radio; do
        expect "the image $name of examples/asm" 0 '' cmp "$top/examples/asm/$name.img" "$work/again/examples/asm/$name.img"
    done
else
    skipped 'the images in assembly are their sources: there is no riscv64-unknown-elf-as'
fi

# ---- Live runs: the log that each printed is replayed to the same text

# lives BOARD: it is run, its text is left in live, and the log in that text is replayed to the same text
lives() {
    "$txboard" run "$1" >"$work/live" || return
    sed '/^report$/,$d' "$work/live" >"$work/log"
    "$txboard" replay "$1" "$work/log" | cmp - "$work/live"
}
# live NAME STEPS DEVICE..: a board with p1, which faults at its second step, and with devices whose action finds
# no target; DEVICE is a name, a bar and the device's other lines
live() {
    local name=$1 device
    printf 'ram = 1048576\nsteps = %s\n[[module]]\nname = "one"\nimage = "p1.img"\nstart = true\n' "$2" >"$boards/live.toml"
    for device in "${@:3}"; do
        printf '[[device]]\nname = "%s"\naction = "resume"\ntarget = "none"\n%b\n' "${device%%|*}" "${device#*|}"
    done >>"$boards/live.toml"
    expect "live: $name" 0 '' from "$boards" lives live.toml
}
# live_report STEPS IRQS DEVICE..: the report after at least two steps; DEVICE is the rest of its line
live_report() {
    local device
    printf 'report\nevents steps %s irqs %s ticks 0 clock 0\nrunning -\nheld\nready\n' "$1" "$2"
    printf 'waits begun 0 satisfied 0 timedout 0 aborted 0 deleted 0 gone 0\n'
    printf 'module 0 one state 3 queued 0 dropped 0\nfault 0 thread 0 cause 1 pc 80000084\n'
    for device in "${@:3}"; do printf 'device %s\n' "$device"; done
    printf 'end'
}
reported() { sed -n '/^report$/,$p' "$work/live"; }
# raised DEVICE WORD..: of the device, the log that was printed has these words in their order, and no others
raised() {
    expect "live: the words of device $1" 0 "${2:+$(printf "I $1 %08x\n" "${@:2}")}" sed -n "/^I $1 /p" "$work/live"
}

live 'no device' 3
expect 'live: no device, the text' 0 "$(printf 'S 3\n'; live_report 3 0)" cat "$work/live"
live 'no word' 3 'a|script = []' 'b|script = []'
expect 'live: no word, the text' 0 "$(printf 'S 3\n'; live_report 3 0 '0 a taken 0 last 00' '1 b taken 0 last 00')" \
    cat "$work/live"
live 'no word and no step' 0 'a|script = []'
raised 0
live 'one word and no step' 0 'a|script = [7]'
raised 0 7
live 'the same word of two devices' 100 'a|script = [9, 14]' 'b|script = [14]'
raised 0 9 14
raised 1 14
live 'a script that is taken again' 3 'a|script = [5, 6, 8]\nrepeat = 2' 'b|script = []' 'c|script = [1, 2, 3]'
raised 0 5 6 8 5 6 8
raised 1
raised 2 1 2 3
printf -v many '%s, ' {1..300}
live 'more words than the inbox holds' 100 "a|script = [$many]" 'b|script = [1, 2, 3]'
raised 0 {1..300}
raised 1 1 2 3
expect 'live: how many were taken' 0 "$(live_report 100 303 '0 a taken 300 last 0e' '1 b taken 3 last 0e')" reported

# how often a module sleeps depends on when the ticks come, but not how many of them there are
sed 's/^steps = 0/steps = 200/; s/^script = .*/script = [1, 2, 3, 4, 5, 6]\nrepeat = 5/' "$work/ticks/board.toml" >"$work/ticks/live.toml"
expect 'live: ticks' 0 '' from "$work/ticks" lives live.toml
raised 0 {1..6} {1..6} {1..6} {1..6} {1..6}
expect 'live: how many ticks were made' 0 'events steps 200 irqs 30 ticks 30 clock 30
device 0 tick taken 30 last 00' sed -n '/^events /p; /^device /p' "$work/live"

# in so few KiB of addresses the host starts no thread, as no stack has room, or that of one device alone; a device
# without one is turned by the caller, one word after each turn of the kernel
lives_in() { (ulimit -s 65536 -v "$1" -t 60 && lives "$2"); }
if (ulimit -s 65536) 2>/dev/null; then
    expect 'live: no device has a thread' 0 '' from "$boards" lives_in 40000 live.toml
    expect 'live: one device has a thread' 0 '' from "$boards" lives_in 100000 live.toml
    live 'three words' 3 'a|script = [5, 6]' 'b|script = [1]'
    expect 'live: three words without a thread' 0 '' from "$boards" lives_in 40000 live.toml
    expect 'live: words and steps by turns' 0 "$(printf 'S 1\nI 0 00000005\nI 1 00000001\nI 0 00000006\nS 2\n')" cat "$work/log"
else
    echo 'skipped: devices without a thread: a stack of 64 MiB is above the limit'
fi

# it reads and refuses as a replay does, but for the log
expect 'live: no such board' 2 '' "$txboard" run "$work/none.toml"
modules 100 none.img >"$boards/live.toml"
expect 'live: the board comes first' 3 'refused board: ram' from "$boards" "$txboard" run live.toml
modules 4096 none.img >"$boards/live.toml"
expect 'live: then the images' 2 '' from "$boards" "$txboard" run live.toml
modules 4096 major.img data.img data.img data.img >"$boards/live.toml"
expect 'live: then the preambles' 3 'refused image 0: BadMajor 00000007' from "$boards" "$txboard" run live.toml
modules 4096 data.img data.img data.img >"$boards/live.toml"
expect 'live: then room' 3 'refused room 2' from "$boards" "$txboard" run live.toml
if [ -w /dev/full ]; then
    expect 'a full device: a live run' 4 '' from "$top" to_full run examples/two.board.toml
fi
expect 'a closed output: a live run' 4 '' from "$top" to_none run examples/two.board.toml

# ---- Words

usage='usage: txboard hart IMAGE N | check BOARD | replay BOARD LOG | run BOARD | gen SEED'
is_usage() { expect "words: $*" 1 "$usage" "$txboard" "$@"; }
is_usage
is_usage ''
is_usage --help
is_usage --version
is_usage hart
is_usage HART "$p1" 1
is_usage Hart "$p1" 1
is_usage hart "$p1"
is_usage hart "$p1" 1 1
is_usage hart "$work/none.img" x
is_usage ' hart' "$p1" 1
is_usage check
is_usage check "$top/examples/one.board.toml" 1
is_usage Check "$top/examples/one.board.toml"
is_usage replay board.toml
is_usage replay board.toml log log
is_usage run
is_usage run board.toml log
is_usage Run board.toml
is_usage gen 1
for number in '' ' 1' '1 ' 01 00 +1 -1 -0 1x 0x1 1.0 1e3 100000001 4294967297 18446744073709551617 $'1\n' '１'; do
    is_usage hart "$p1" "$number"
done
expect 'words: a number of 100,000 digits' 1 "$usage" "$txboard" hart "$p1" "${long//a/1}"
expect 'words: no text as a name' 1 "$usage" "$txboard" hart $'\xff' 1
expect 'words: no text as a board' 1 "$usage" "$txboard" check $'\xff'
expect "words: a program's name that is no text" 0 "$p1_text" \
    bash -c 'exec -a "$1" "${@:2}"' - $'\xff' "$txboard" hart "$p1" 1
expect 'words: no text after the others' 1 "$usage" "$txboard" hart "$p1" 1 $'p1\xc3\x28'

# ---- The wrapper: relative names are those of the caller, and words stay whole

mkdir "$work/a folder" && cp "$p1" "$work/a folder/an image.img"
expect 'a relative name' 0 "$p1_text" from "$top/examples" "$txboard" hart p1.img 1
expect 'wrapper: a relative name' 0 "$p1_text" from "$work/a folder" "$top/txboard" hart '../a folder/an image.img' 1
expect 'wrapper: called by a relative name' 0 "$p1_text" from "$top/tests" ../txboard hart ../examples/p1.img 1
expect 'wrapper: a name with spaces' 0 "$p1_text" from "$work/a folder" "$top/txboard" hart 'an image.img' 1
expect 'wrapper: a star' 2 '' from "$work/a folder" "$top/txboard" hart '*' 1
expect 'wrapper: an empty word' 1 "$usage" "$top/txboard" hart "$p1" 1 ''
expect 'wrapper: no words' 1 "$usage" "$top/txboard"

# built at once, with no proof: it says so on standard error
unproved() {
    "$top/txboard" --unproved "$@" 2>"$work/said"
    local status=$?
    grep -q 'NOTHING OF THIS IS PROVED' "$work/said" && return "$status"
}
expect 'wrapper: --unproved' 0 "$(cat "$top/examples/two.expected")" \
    from "$top" unproved replay examples/two.board.toml examples/two.log

# ---- The files of the repository

expect 'the stored run has the image of examples/' 0 '' cmp "$top/crates/txboard/data/p1.img" "$p1"
if command -v python3 >"$work/out"; then
    cp -r "$top/examples" "$work/examples" && rm "$work"/examples/*.img
    expect 'examples/images.py' 0 '' python3 "$work/examples/images.py"
    expect 'it writes the images of examples/' 0 '' diff -r "$top/examples" "$work/examples"
else
    skipped 'the images of examples/: there is no python3'
fi

echo "$passed passed, $failed failed"
[ "$failed" -eq 0 ]
