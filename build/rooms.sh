# How fudrask proves and builds what the program stands on.
#
# While rt works on a crate it keeps the folders of that crate and of all that it stands on to itself, so within one copy of the repository no
# two crates are proved side by side. Here each is proved in a room of its own, a folder with links to its files and to the libraries below it,
# and what was made there moves to its place. Up to four are proved side by side; of those that are ready the ones with the longest way to the
# program go first. In four jobs a crate costs up to three times as much processor time as in one, since each job reads what is below. So a crate
# has one job, unless processors are idle.

# The seconds of processor time that each crate costs from nothing; of one that is not there so many.
costs=build/costs
unknown=60
# The memory that a crate may want while it is proved by four jobs, in kibibytes.
memory=5000000

# The cost of each crate, and of the longest way from its beginning to the program.
declare -A cost=() way=()
total=0

read_costs() {
    local name seconds low at
    while read -r name seconds; do cost[$name]=$seconds; done < <(grep -v '^#' "$costs" 2>/dev/null)
    for ((at = ${#order[@]} - 1; at >= 0; at--)); do
        name=${order[at]}
        : "${cost[$name]:=$unknown}"
        way[$name]=$((${way[$name]:-0} + cost[$name]))
        for low in ${named[$name]}; do
            [ "${way[$low]:-0}" -ge "${way[$name]}" ] || way[$low]=${way[$name]}
        done
    done
}

# The files of a crate in a room, by links where the file system has them.
link_into() {
    local to=$1 it
    shift
    for it; do
        [ -e "$it" ] || continue
        cp -al "$it" "$to" 2>/dev/null || cp -a "$it" "$to" || return 1
    done
}

furnish() {
    local name=$1 room=$2 low
    rm -rf "$room"
    mkdir -p "$room/crates" && cp HANDLES "$room" || return 1
    for low in ${lows[$name]} "$name"; do
        mkdir "$room/crates/$low" && link_into "$room/crates/$low" "crates/$low/"{src,specs,proofs} || return 1
        grep -E "^$low[: ]" crates.txt >>"$room/crates.txt" || return 1
        [ "$low" = "$name" ] || { mkdir "$room/crates/$low/out" && link_into "$room/crates/$low/out" "crates/$low/out/rlib"; } || return 1
    done
    [ ! -e "crates/$name/out" ] || mv "crates/$name/out" "$room/crates/$name"
}

# Moves what was made in rooms to its place, and takes the rooms away.
put_back() {
    local room name
    for room; do
        name=${room##*/}
        [ ! -e "$room/crates/$name/out" ] || { rm -rf "crates/$name/out" && mv "$room/crates/$name/out" "crates/$name"; }
        rm -rf "$room"
    done
}

# Proves and builds a crate. The program is run to no effect, for so rt builds it.
build_one() {
    local name=$1 room=$work/rooms/$1 status TIMEFORMAT='%U %S' words jobs=()
    # Where there is little memory rt says how many jobs a crate has.
    [ "$2" = 0 ] || jobs=(--jobs "$2")
    words=(rt lib "${jobs[@]}")
    # Whoever calls rt on the crate in its place waits, or is waited for.
    exec 8<"crates/$name" && flock 8 || return 1
    furnish "$name" "$room" || { echo "$room was not made"; return 1; }
    [ "$name" != tile_server ] || words=(rt run "${jobs[@]}" -- load 1 1)
    { time (cd "$room/crates/$name" && "${words[@]}" 2>&1); } 2>"$work/$name.seconds"
    status=$?
    put_back "$room"
    [ "$status" != 0 ] || [ "$name" = tile_server ] || touch "crates/$name/out/rlib/stamp"
    return "$status"
}

declare -A built=() running=() begun=()

is_ready() {
    local low
    for low in ${lows[$1]}; do [ -n "${built[$low]-}" ] || return 1; done
}

# What has not to be built again, how much the rest costs, and how many crates the memory lets work side by side.
look_around() {
    local name
    total=0 part=0 since=$SECONDS minute=
    for name in "${order[@]}"; do
        if [ "$name" != tile_server ] && is_ready "$name" && is_newest "crates/$name/out/rlib/stamp" "$name"; then
            built[$name]=1
        else
            total=$((total + cost[$name]))
        fi
    done
    known=${#built[@]}
    processors=$(nproc 2>/dev/null || echo 2)
    lanes=$(awk -v one="$memory" '/^MemAvailable/ { print int($2 / one) }' /proc/meminfo 2>/dev/null)
    most_jobs=$((${lanes:-0} == 0 ? 0 : processors < 4 ? processors : 4))
    lanes=$((lanes > 4 ? 4 : lanes < 1 ? 1 : lanes))
}

# How many jobs a crate has, where so many crates are ready or at work: one, unless processors are idle.
jobs_of() {
    local others=$1 jobs=1
    [ "$others" -ge 3 ] || jobs=$((4 / others))
    echo $((jobs < most_jobs ? jobs : most_jobs))
}

# Starts crates that are ready, those with the longest way first.
start_ready() {
    local name ready=()
    for name in $(for name in "${order[@]}"; do echo "${way[$name]} $name"; done | sort -rn | cut -d' ' -f2); do
        [ -z "${built[$name]-}${begun[$name]-}" ] && is_ready "$name" && ready+=("$name")
    done
    local others=$((${#running[@]} + ${#ready[@]}))
    for name in "${ready[@]}"; do
        [ "${#running[@]}" -lt "$lanes" ] || return 0
        begun[$name]=$SECONDS
        build_one "$name" "$(jobs_of "$others")" >"$work/$name.log" 2>&1 </dev/null &
        running[$!]=$name
    done
}

# Says how far it is, by the costs of what is built and of what is at work, and how long the rest takes at this pace.
tell() {
    local name now=$part passed=$((SECONDS - since)) one most pace
    for name in "${running[@]}"; do
        one=$(((SECONDS - begun[$name]) * processors / ${#running[@]}))
        most=$((cost[$name] * 9 / 10))
        now=$((now + (one < most ? one : most)))
    done
    pace=$((passed >= 120 && now > 0 ? 100 * now / passed : 80 * processors))
    say "$((100 * now / total)) % is proved, some $((100 * (total - now) / pace / 60 + 1)) minutes are left; at work: ${running[*]}"
}

# Ends what is at work, and the script.
stop() {
    local pid
    for pid in $minute "${!running[@]}"; do kill -- "-$pid"; done 2>/dev/null
    wait 2>/dev/null
    put_back "$work"/rooms/*
    exit "$1"
}

# Waits until a crate is built, at most a minute.
await() {
    local pid status name
    sleep 60 >/dev/null 2>&1 9>&- &
    minute=$!
    wait -n -p pid
    status=$?
    [ "$pid" = "$minute" ] && return
    kill "$minute" 2>/dev/null
    wait "$minute" 2>/dev/null
    name=${running[$pid]}
    unset "running[$pid]"
    if [ "$status" != 0 ]; then
        say "$name was not proved and built (status $status); its messages are in $work/$name.log"
        stop 1
    fi
    built[$name]=1 part=$((part + cost[$name]))
}

# What each crate cost.
note_costs() {
    local name
    for name in "${order[@]}"; do
        awk -v name="$name" '{ printf "%s %.0f\n", name, $1 + $2 }' "$work/$name.seconds"
    done
}

build() {
    shopt -s nullglob
    put_back "$work"/rooms/*
    read_costs
    look_around
    : >"$stamp.new"
    # Each job is a group of processes of its own, so that all of it can be ended.
    set -m
    trap 'stop 130' INT
    trap 'stop 143' TERM HUP
    say "proves and builds $((${#order[@]} - known)) crates; their messages are in $work"
    while [ "${#built[@]}" -lt "${#order[@]}" ]; do
        start_ready
        tell
        await
    done
    trap - INT TERM HUP
    set +m
    mv "$stamp.new" "$stamp"
    [ "$known" != 0 ] || note_costs >"$work/costs"
    say "proved and built in $(((SECONDS - since + 59) / 60)) minutes"
}
