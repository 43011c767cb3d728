#!/usr/bin/env python3
"""A plain machine over lists: it writes three groups of cases for script_trials, each with what it answers itself.

The first has 400 mixed calls of one session. In the second one session sets and deletes points on a line and channels
over them, and two listeners hear of it, one by names and one by patterns; every channel is tested at every write. The
third goes over the log of the generated workload, change by change, and tells what a fence would have told of it. Which
calls, is drawn by a generator of numbers, so that the same text comes of each run. The groups stand one behind another
in crates/script_trials/stdin; they are written anew where a command, a message or a report changes:

    bench/plain_machine.py > groups
"""

import fnmatch
from math import floor


class Numbers:
    """The numbers of a linear congruence."""

    def __init__(self, seed):
        self.state = seed

    def below(self, bound):
        self.state = (self.state * 6364136223846793005 + 1442695040888963407) % 2**64
        return (self.state >> 33) % bound


def bulk(text):
    return f"${len(text.encode())}~{text}~"


def array(items):
    return f"*{len(items)}~" + "".join(items)


def number(n):
    return f":{n}~"


def words_of(form, fill):
    """The words of a form, in which a word of one letter stands for another."""
    return [fill(word) if len(word) == 1 else word for word in form.split(" ")]


# --- The machine of objects.

FORMS = """\
SET k i POINT c c
SET k i FIELD n v POINT c c
SET k i EX s POINT c c
SET k i FIELD n v FIELD n v EX s BOUNDS -9 -9 c c
SET k i NX POINT c c
SET k i XX FIELD n v POINT c c
GET k i WITHFIELDS
GET k i BOUNDS
GET k i WITHFIELDS POINT
DEL k i
PDEL k p
DROP k
FSET k i n v n v
FGET k i n
EXPIRE k i s
PERSIST k i
TTL k i
KEYS p
BOUNDS k
STATS k k
SCAN k LIMIT l IDS
SCAN k DESC CURSOR l LIMIT l MATCH p POINTS
SCAN k WHERE n v inf WHEREIN n 2 v 0 NOFIELDS
SCAN k WHERE n -inf v COUNT""".split("\n")

CHOICES = {
    "k": ["fleet", "site", "van"],
    "i": ["a", "ab", "b", "ba", "c", "é"],
    "n": ["age", "speed", "load"],
    "v": ["0", "0", "1", "2", "-7"],
    "p": ["*", "a*", "?", "[b-v]*", "*a*"],
}


def drawn_word(numbers, letter):
    if letter in CHOICES:
        return CHOICES[letter][numbers.below(len(CHOICES[letter]))]
    if letter in "sl":
        return str(numbers.below(3) + 1)
    if letter == "c":
        return str(numbers.below(40))
    return letter


class Thing:
    """An object: its text, its box (least lat, lon, greatest lat, lon), positions, fields and deadline."""

    def __init__(self, text, box, positions):
        self.text, self.box, self.positions = text, box, positions
        self.fields, self.deadline = {}, None

    def is_over(self, moment):
        return self.deadline is not None and self.deadline <= moment


def point(lat, lon):
    return Thing(f'{{"type":"Point","coordinates":[{lon},{lat}]}}', (lat, lon, lat, lon), 1)


def square(a, b, c, d):
    ring = f"[{b},{a}],[{d},{a}],[{d},{c}],[{b},{c}],[{b},{a}]"
    return Thing(f'{{"type":"Polygon","coordinates":[[{ring}]]}}', (a, b, c, d), 5)


def shown_point(thing):
    a, b, c, d = thing.box
    return array([bulk(str(floor((a + c) / 2))), bulk(str(floor((b + d) / 2)))])


def shown_box(box):
    a, b, c, d = box
    return array([array([bulk(str(a)), bulk(str(b))]), array([bulk(str(c)), bulk(str(d))])])


def shown_fields(thing):
    items = []
    for name in sorted(thing.fields):
        items += [bulk(name), bulk(str(thing.fields[name]))]
    return array(items)


class Machine:
    """All objects by key and id, and the clock."""

    def __init__(self):
        self.objects, self.clock = {}, 0

    def ids(self, key):
        return sorted((i for k, i in self.objects if k == key), key=str.encode)

    def missing(self, key):
        return "-ERR id not found~" if self.ids(key) else "-ERR key not found~"

    def call(self, moment, words):
        self.clock = max(self.clock, moment)
        self.objects = {at: thing for at, thing in self.objects.items() if not thing.is_over(self.clock)}
        return getattr(self, words[0].lower())(*words[1:])

    def give(self, thing, pairs):
        """Gives fields values; how many are others then. Of one name the last value counts."""
        last = {name: int(value) for name, value in pairs}
        changes = sum(thing.fields.get(name, 0) != value for name, value in last.items())
        for name, value in last.items():
            thing.fields.pop(name, None)
            if value != 0:
                thing.fields[name] = value
        return changes

    def set(self, key, id, *words):
        words, pairs, seconds, only = list(words), [], None, None
        while True:
            word = words.pop(0)
            if word == "FIELD":
                pairs.append((words.pop(0), words.pop(0)))
            elif word == "EX":
                seconds = int(words.pop(0))
            elif word in ("NX", "XX"):
                only = word
            else:
                break
        old = self.objects.get((key, id))
        if (only == "NX" and old) or (only == "XX" and not old):
            return "$-1~"
        thing = (point if word == "POINT" else square)(*map(int, words))
        thing.fields = dict(old.fields) if old else {}
        self.give(thing, pairs)
        thing.deadline = None if seconds is None else self.clock + 1000 * seconds
        self.objects[key, id] = thing
        return "+OK~"

    def get(self, key, id, *how):
        thing = self.objects.get((key, id))
        if not thing:
            return "$-1~"
        shown = bulk(thing.text)
        if "POINT" in how:
            shown = shown_point(thing)
        if "BOUNDS" in how:
            shown = shown_box(thing.box)
        return array([shown, shown_fields(thing)]) if "WITHFIELDS" in how else shown

    def delete(self, ats):
        for at in ats:
            del self.objects[at]
        return number(len(ats))

    def pdel(self, key, glob):
        return self.delete([(key, id) for id in self.ids(key) if fnmatch.fnmatchcase(id, glob)])

    def drop(self, key):
        return number(int(self.delete([(key, id) for id in self.ids(key)]) != ":0~"))

    def fset(self, key, id, *words):
        thing = self.objects.get((key, id))
        return number(self.give(thing, zip(words[::2], words[1::2]))) if thing else self.missing(key)

    def fget(self, key, id, name):
        thing = self.objects.get((key, id))
        return bulk(str(thing.fields.get(name, 0))) if thing else self.missing(key)

    def expire(self, key, id, seconds):
        thing = self.objects.get((key, id))
        if thing:
            thing.deadline = self.clock + 1000 * int(seconds)
        return number(int(thing is not None))

    def persist(self, key, id):
        thing = self.objects.get((key, id))
        had = thing is not None and thing.deadline is not None
        if had:
            thing.deadline = None
        return number(int(had))

    def ttl(self, key, id):
        thing = self.objects.get((key, id))
        if not thing:
            return number(-2)
        return number(-1 if thing.deadline is None else (thing.deadline - self.clock + 999) // 1000)

    def keys(self, glob):
        keys = sorted({key for key, _ in self.objects})
        return array([bulk(key) for key in keys if fnmatch.fnmatchcase(key, glob)])

    def bounds(self, key):
        boxes = [self.objects[key, id].box for id in self.ids(key)]
        if not boxes:
            return "*-1~"
        a, b, c, d = zip(*boxes)
        return shown_box((min(a), min(b), max(c), max(d)))

    def stats(self, *keys):
        return array([self.stats_of(key) for key in keys])

    def stats_of(self, key):
        things = [self.objects[key, id] for id in self.ids(key)]
        if not things:
            return "*-1~"
        positions = sum(thing.positions for thing in things)
        return array([bulk("num_objects"), number(len(things)), bulk("num_points"), number(positions)])

    def scan(self, key, *words):
        words, tests, glob, cursor, limit, down, bare = list(words), [], "*", 0, 100, False, False
        while True:
            word = words.pop(0)
            if word == "LIMIT":
                limit = int(words.pop(0))
            elif word == "CURSOR":
                cursor = int(words.pop(0))
            elif word == "MATCH":
                glob = words.pop(0)
            elif word == "DESC":
                down = True
            elif word == "NOFIELDS":
                bare = True
            elif word == "WHERE":
                name, low, high = words.pop(0), float(words.pop(0)), float(words.pop(0))
                tests.append(lambda f, name=name, low=low, high=high: low <= f.get(name, 0) <= high)
            elif word == "WHEREIN":
                name, count = words.pop(0), int(words.pop(0))
                values = [int(words.pop(0)) for _ in range(count)]
                tests.append(lambda f, name=name, values=values: f.get(name, 0) in values)
            else:
                break
            if not words:
                word = "OBJECTS"
                break
        found = [id for id in self.ids(key) if fnmatch.fnmatchcase(id, glob)]
        found = [id for id in found if all(test(self.objects[key, id].fields) for test in tests)]
        if down:
            found.reverse()
        if word == "COUNT":
            return number(len(found))
        page = found[cursor : cursor + limit]
        behind = cursor + limit if cursor + limit < len(found) else 0
        return array([number(behind), array([self.item(key, id, word, bare) for id in page])])

    def item(self, key, id, shown, bare):
        thing = self.objects[key, id]
        if shown == "IDS":
            return bulk(id)
        parts = [bulk(id), shown_point(thing) if shown == "POINTS" else bulk(thing.text)]
        if thing.fields and not bare:
            parts.append(shown_fields(thing))
        return array(parts)


# `del` is a word of Python.
setattr(Machine, "del", lambda self, key, id: self.delete([(key, id)] if (key, id) in self.objects else []))


def mixed_calls():
    print("group mixed calls\n\ncase four hundred calls of one session\n< open\n= session 1")
    numbers, machine, moment = Numbers(7), Machine(), 0
    for _ in range(400):
        moment += numbers.below(400)
        form = FORMS[numbers.below(len(FORMS))]
        words = words_of(form, lambda letter: drawn_word(numbers, letter))
        print(f"at {moment}\n> {' '.join(words)}\n- {machine.call(moment, words)}")


# --- Points on a line, and channels over them.

POINTS, CHANNELS = "abcdef", ["c0", "c1", "c2", "c3"]

LINES = """\
SETCHAN C INTERSECTS k FENCE BOUNDS -5 L 5 H
SETCHAN C NEARBY k FENCE ROAM k * M
SETCHAN C NEARBY k FENCE NODWELL ROAM k * M
DEL k P
PDEL k [a-c]
DELCHAN C
DROP k
SET k P POINT 0 L""".split("\n")


def text_at(place):
    return f'{{"type":"Point","coordinates":[{place},0]}}'


class Board:
    """Where the points stand, what the channels watch, and what the two listeners hear."""

    def __init__(self):
        self.places, self.watches = {}, {}
        self.by_name, self.by_pattern = [], []

    def tell(self, channel, command, rest):
        payload = f'{{"command":"{command}","hook":"{channel}","key":"k"{rest}}}'
        if channel in ("c0", "c2"):
            self.by_name.append(f"message {channel} {payload}")
        self.by_pattern.append(f"pmessage c* {channel} {payload}")
        if channel == "c1":
            self.by_pattern.append(f"pmessage *1 {channel} {payload}")

    def tell_set(self, channel, detection, name, place, more=""):
        self.tell(channel, f'set","detect":"{detection}', f',"id":"{name}","object":{text_at(place)}{more}')

    def tell_stretch(self, channel, name, place, low, high):
        old = self.places.get(name)
        was, now = old is not None and low <= old <= high, low <= place <= high
        crosses = old is not None and min(old, place) <= high and low <= max(old, place)
        if now and not was:
            self.tell_set(channel, "enter", name, place)
        if was and not now:
            self.tell_set(channel, "exit", name, place)
        if crosses and not was and not now:
            self.tell_set(channel, "cross", name, place)
        self.tell_set(channel, "inside" if now else "outside", name, place)

    def tell_near(self, channel, name, place, meters, nodwell):
        old = self.places.get(name)
        for other in sorted(self.places):
            if other == name:
                continue
            there = self.places[other]
            was, now = old is not None and abs(old - there) <= meters, abs(place - there) <= meters
            if (now and not (was and nodwell)) or (was and not now):
                how = "nearby" if now else "faraway"
                more = f',"{how}":{{"key":"k","id":"{other}","object":{text_at(there)},"meters":{abs(place - there)}}}'
                self.tell_set(channel, "roam", name, place, more)

    def set(self, name, place):
        for channel in sorted(self.watches):
            how, *what = self.watches[channel]
            (self.tell_stretch if how == "stretch" else self.tell_near)(channel, name, place, *what)
        self.places[name] = place

    def delete(self, name):
        if name not in self.places:
            return 0
        place = self.places.pop(name)
        for channel in sorted(self.watches):
            how, *what = self.watches[channel]
            if how == "stretch" and what[0] <= place <= what[1]:
                self.tell(channel, "del", f',"id":"{name}"')
        return 1

    def drop(self):
        if not self.places:
            return 0
        self.places.clear()
        for channel in sorted(self.watches):
            self.tell(channel, "drop", "")
        return 1

    def do(self, choice, name, channel, low, high, meters):
        """Does one of the things, and answers it."""
        if choice == 3:
            return number(self.delete(name))
        if choice == 4:
            return number(sum(self.delete(name) for name in "abc"))
        if choice == 5:
            return number(int(self.watches.pop(channel, None) is not None))
        if choice == 6:
            return number(self.drop())
        if choice > 6:
            self.set(name, low)
            return "+OK~"
        watches = [("stretch", low, high), ("near", meters, False), ("near", meters, True)]
        self.watches[channel] = watches[choice]
        return ":1~"


def told_lines(session, frames):
    print(f"< take {session}")
    for frame in frames:
        print(f"- {frame}")
    if not frames:
        print("= empty")
    frames.clear()


def listeners():
    print("\ngroup listeners\n\ncase two listeners and every channel")
    print("< open\n= session 1\n< open\n= session 2\n< open\n= session 3")
    print("2? SUBSCRIBE c0 c2\n- *3~$9~subscribe~$2~c0~:1~\n- *3~$9~subscribe~$2~c2~:2~")
    print("3? PSUBSCRIBE c* *1\n- *3~$10~psubscribe~$2~c*~:1~\n- *3~$10~psubscribe~$2~*1~:2~")
    numbers, board = Numbers(11), Board()
    for _ in range(400):
        choice = numbers.below(25)
        low = numbers.below(40)
        name, channel = POINTS[numbers.below(6)], CHANNELS[numbers.below(4)]
        high, meters = low + numbers.below(15), numbers.below(12)
        fill = {"P": name, "C": channel, "L": str(low), "H": str(high), "M": str(meters)}
        words = words_of(LINES[min(choice, 7)], lambda letter: fill.get(letter, letter))
        print(f"> {' '.join(words)}\n- {board.do(choice, name, channel, low, high, meters)}")
        told_lines(2, board.by_name)
        told_lines(3, board.by_pattern)


# --- The generated workload, and what a fence would have told of it.

COMMANDS, SEED = 20000, 3
GLOB, LOW, HIGH = "v1?", 250000, 749999
FENCE = f"SETCHAN z WITHIN fleet MATCH {GLOB} FENCE BOUNDS {LOW} {LOW} {HIGH} {HIGH}"


def changes_of(count, seed):
    """What stands in the log of the workload, record by record: None for a channel that is set, else an id and the
    place where it is put, or None where it is deleted."""
    numbers, standing = Numbers(seed), set()
    changes = [None] * 16
    for _ in range(count):
        kind = numbers.below(10)
        if kind > 7:
            # What is searched for: two numbers are drawn.
            numbers.below(1)
            numbers.below(1)
            continue
        name = f"v{numbers.below(count // 10 + 1)}"
        if kind < 7:
            y = numbers.below(1000000)
            changes.append((name, (numbers.below(1000000), y)))
            standing.add(name)
        elif name in standing:
            changes.append((name, None))
            standing.remove(name)
    return changes, len(standing)


def is_in(place):
    return place is not None and all(LOW <= at <= HIGH for at in place)


def meets_square(old, new):
    """Whether the way from one place to another meets the square: it does unless all of it is beyond a side, or all
    corners are on one side of its line."""
    if any(max(a, b) < LOW or min(a, b) > HIGH for a, b in zip(old, new)):
        return False
    (ax, ay), (bx, by) = old, new
    turns = [(bx - ax) * (y - ay) - (by - ay) * (x - ax) for x in (LOW, HIGH) for y in (LOW, HIGH)]
    return min(turns) <= 0 <= max(turns)


def raised(old, new):
    """What the fence tells of an object that is put at a new place, or is deleted, by the place where it stood."""
    if new is None:
        return ["del"] if is_in(old) else []
    if is_in(new):
        return ["inside"] if is_in(old) else ["enter", "inside"]
    if is_in(old):
        return ["exit", "outside"]
    return ["cross", "outside"] if old is not None and meets_square(old, new) else ["outside"]


def reported(changes):
    """The lines of the report, change by change."""
    places, lines = {}, []
    grid = [[0] * 8 for _ in range(8)]
    for at, change in enumerate(changes, 1):
        if change is None:
            continue
        name, place = change
        if fnmatch.fnmatchcase(name, GLOB):
            lines += [f"{at} {word} {name}" for word in raised(places.get(name), place)]
        places[name] = place
        if is_in(place):
            x, y = ((axis - LOW) * 8 // (HIGH - LOW + 1) for axis in place)
            grid[y][x] += 1
    return lines + [f"total {len(lines)}"] + [" ".join(map(str, row)) for row in grid]


def workload_and_fence():
    changes, objects = changes_of(COMMANDS, SEED)
    words = FENCE.split(" ")
    print("\ngroup what a fence would have told of a workload")
    print(f"\ncase the workload stands in a log\nplays workload\nwords {COMMANDS} {SEED}\n= objects {objects}")
    print("\ncase each line of the report, and as many as the total says\nagain\nwords backtest")
    print(f"last {array([bulk(word) for word in words])}")
    for line in reported(changes):
        print(f"= {line}")


mixed_calls()
listeners()
workload_and_fence()
