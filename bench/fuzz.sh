#!/usr/bin/env bash
# Gives the program bent inputs: what sessions send, texts of objects, lines of scripts, and logs. The head of `fuzz.c` says what is looked at.
# Usage: bench/fuzz.sh [--afl] [INPUTS [SEED [WORKERS]]]   10000000 inputs, seed 1 and a worker a processor, if left out.
# Needs python3 and cc. Half of the inputs are requests; of a thousand 450 are objects, 45 lines and 5 logs. They are bent from what stands in
# the cases that `script_trials` plays. The same numbers and seed give the same inputs. With --afl, afl-fuzz of Debian's AFL++ draws them in
# place of fuzz.c, from the same seeds and guided by its plain readers; the answers are looked at alike.
# Folders are made where TMPDIR says, which should be in memory. They are kept, and named, where something was found. PROGRAM may name another
# program than the repository's.
set -eu
cd "$(dirname "$0")/.."
afl=''
[ "${1:-}" = --afl ] && { afl=yes; shift; }
inputs=${1:-10000000}
seed=${2:-1}
workers=${3:-$(nproc)}
program=${PROGRAM:-}
if [ -z "$program" ]; then
  # Builds the program where it is older than its sources.
  ./fudrask load 1 1 >/dev/null
  program=$PWD/crates/tile_server/out/tile_server
fi
folder=$(mktemp -d "${TMPDIR:-/tmp}/fuzz-run-XXXXXX")
cc -O2 -Wall -o "$folder/fuzz" bench/fuzz.c
if [ -n "$afl" ]; then
  AFL_QUIET=1 afl-clang-fast -O2 -o "$folder/fuzz-afl" bench/fuzz.c
fi

python3 - crates/script_trials/stdin "$folder/seeds" <<'PYTHON'
import os, re, sys

MOST = 2048
found = {"requests": {}, "objects": {}, "lines": {}, "logs": {}}


def bytes_of(text):
    """The bytes of a text, as the head of script_trials/src/main.rt says."""
    text = re.sub(r"\{(\d+)\*([^}]*)\}", lambda it: it[2] * min(int(it[1]), 40), text)
    parts = re.split(rb"(%[0-9A-F]{2})", text.encode())
    return b"".join(bytes.fromhex(it[1:].decode()) if it[:1] == b"%" and len(it) == 3 else it.replace(b"~", b"\r\n") for it in parts)


def request_of(words):
    return b"*%d\r\n" % len(words) + b"".join(b"$%d\r\n%s\r\n" % (len(it), it) for it in words)


def keep(kind, it):
    """Of those that differ in numbers alone, the first is kept."""
    if 0 < len(it) <= MOST:
        found[kind].setdefault(re.sub(rb"[0-9]+", b"0", it), it)


def keep_request(words):
    keep("requests", request_of(words))
    keep("lines", b"feed 1 0 " + b"".join(b"%c" % b if 33 <= b < 127 and b != 37 else b"%%%02X" % b for b in request_of(words)))
    if words[0] == b"SET" and b"OBJECT" in words:
        keep("objects", words[-1])


def hear(line):
    word, _, rest = line.partition(" ")
    if re.fullmatch(r"\d*[>?!]|sends", word) and rest:
        keep_request([bytes_of(it) for it in rest.split(" ")])
    elif word in ("sent", "feed", "cut"):
        keep("requests", bytes_of(rest.split(" ", {"sent": 0, "feed": 1, "cut": 2}[word])[-1]))
    elif word == "<":
        keep("lines", rest.encode())
    elif word == "record":
        keep("logs", request_of([bytes_of(it) for it in rest.split(" ")]))
    elif word == "bytes" and rest.startswith("%01TFL"):
        keep("logs", bytes_of(rest))


for line in open(sys.argv[1], encoding="utf-8"):
    line = line.rstrip("\n")
    if line.startswith("each "):
        _, first, _, template = line.split(" ", 3)
        for it in template.replace("@", first).split(";"):
            hear(it.lstrip())
    else:
        hear(line)
for it in ("open", "take 1", "close 1", "tick 5", "step", "reopen"):
    keep("lines", it.encode())
for kind, kept in found.items():
    os.makedirs(f"{sys.argv[2]}/{kind}")
    for number, it in enumerate(kept.values()):
        with open(f"{sys.argv[2]}/{kind}/{number:05}", "wb") as file:
            file.write(it)
    print(f"{kind}: {len(kept)} seeds", file=sys.stderr)
PYTHON

cd "$folder"
export TMPDIR="$folder" LC_ALL=C
status=0

# What AFL++ draws of a kind, by workers that share what they find.
draw() {
  local kind=$1 count=$2 worker pids=() wrong
  : >"done-$kind"
  for ((worker = 0; worker < workers; worker++)); do
    DONE=$folder/done-$kind AFL_AUTORESUME=0 afl-fuzz -S "worker$worker" -i "seeds/$kind" -o "afl-$kind" -t 20000 -m none -s $((seed + worker)) \
      -E $((count / workers)) -- "$folder/fuzz-afl" drawn "$kind" "$program" >"afl-$kind-$worker.log" 2>&1 &
    pids+=($!)
  done
  for pid in "${pids[@]}"; do
    wait "$pid" || status=1
  done
  wrong=$(find "afl-$kind" \( -path '*/crashes/id*' -o -path '*/hangs/id*' \) | wc -l)
  echo "afl $kind: $(awk '{ sum += $1 } END { print sum + 0 }' "done-$kind") inputs right, $wrong wrong, late or ended by a signal"
  [ "$wrong" = 0 ] || status=1
}

export AFL_NO_UI=1 AFL_SKIP_CPUFREQ=1 AFL_I_DONT_CARE_ABOUT_MISSING_CRASHES=1 AFL_NO_AFFINITY=1
for part in requests:500 objects:450 lines:45 logs:5; do
  kind=${part%:*}
  count=$((inputs * ${part#*:} / 1000))
  if [ -n "$afl" ]; then
    draw "$kind" "$count"
    continue
  fi
  pids=()
  for ((worker = 0; worker < workers; worker++)); do
    ./fuzz run "$kind" $((count * worker / workers)) $((count * (worker + 1) / workers)) "$seed" "$program" "seeds/$kind" &
    pids+=($!)
  done
  for pid in "${pids[@]}"; do
    wait "$pid" || status=1
  done
done
if [ "$status" != 0 ]; then
  echo "fuzz: seed $seed: something was found; see $folder"
  exit 1
fi
rm -rf "$folder"
