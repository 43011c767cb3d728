// Gives the program bent inputs, and looks whether what it answers is what docs/FORMATS.md and docs/COMMANDS.md say.
//
// fuzz run KIND FIRST LAST SEED PROGRAM SEEDS   the inputs from FIRST up to LAST, without it; each is drawn from its number, the seed and
//                                               the files of the folder SEEDS, so that it can be drawn again
// fuzz show KIND NUMBER SEED SEEDS              writes one of them to standard output
// fuzz one KIND PROGRAM                         the input of standard input alone; ends by SIGABRT where the answer is wrong
// fuzz drawn KIND PROGRAM                       the inputs that afl-fuzz of AFL++ draws, where afl-clang-fast compiled this: the plain readers
//                                               guide it; ends by SIGABRT where an answer is wrong, and puts the number of those that were
//                                               right last in the file that DONE names
//
// KIND       an input is                          and is given
// requests   what a session sends                 by a `feed` of a script: as many calls have to be made, and the session has to be told the
//                                                 fault, as a plain reader tells; another session is answered behind each
// objects    a text of an object                  by a SET: what a plain reader of JSON takes for none has to be refused as `not json`, and
//                                                 no other; what is accepted has to be read back, and deleted
// lines      lines of a script                    by `replay`: the first line that is none has to be named
// logs       a.log, MARK and b.log                by `check`: what has to come is told by reading the head, the gates and the lengths
//
// Many inputs are given to one process, but for logs. What is wrong is written to a file found-KIND-NUMBER and told; SIGKILL ends a process
// that does nothing for ten seconds. An input over a second is given once more, alone, and counts as slow where it takes a second then.
#define _GNU_SOURCE
#include <dirent.h>
#include <errno.h>
#include <fcntl.h>
#include <limits.h>
#include <math.h>
#include <poll.h>
#include <signal.h>
#include <stdarg.h>
#include <stdbool.h>
#include <stdint.h>
#include <stdio.h>
#include <stdlib.h>
#include <string.h>
#include <sys/mman.h>
#include <sys/prctl.h>
#include <sys/stat.h>
#include <sys/wait.h>
#include <time.h>
#include <unistd.h>

#define MARK "\n--b--\n"
enum { MOST_BYTES = 4096, BATCH = 5000, LINES_BATCH = 400, MOST_FOUND = 20 };

static void die(const char *what) {
    perror(what);
    exit(2);
}

// ---- texts

typedef struct { uint8_t *at; size_t len, room; } Text;

static void need(Text *t, size_t more) {
    if (t->len + more <= t->room) return;
    t->room = (t->len + more) * 2 + 64;
    t->at = realloc(t->at, t->room);
    if (!t->at) die("realloc");
}

static void put(Text *t, const void *bytes, size_t len) {
    need(t, len);
    if (len) memcpy(t->at + t->len, bytes, len);
    t->len += len;
}

static void put_byte(Text *t, uint8_t byte) { put(t, &byte, 1); }

__attribute__((format(printf, 2, 3))) static void say(Text *t, const char *form, ...) {
    char line[256];
    va_list list;
    va_start(list, form);
    int len = vsnprintf(line, sizeof line, form, list);
    va_end(list);
    put(t, line, (size_t)len);
}

static void put_bulk(Text *t, const void *bytes, size_t len) {
    say(t, "$%zu\r\n", len);
    put(t, bytes, len);
    put(t, "\r\n", 2);
}

// Bytes as they stand in a line of a script.
static void put_escaped(Text *t, const uint8_t *bytes, size_t len) {
    static const char digits[] = "0123456789ABCDEF";
    need(t, len * 3);
    for (size_t i = 0; i < len; i++) {
        uint8_t b = bytes[i];
        if (b > ' ' && b <= '~' && b != '%') {
            t->at[t->len++] = b;
        } else {
            t->at[t->len++] = '%';
            t->at[t->len++] = (uint8_t)digits[b >> 4];
            t->at[t->len++] = (uint8_t)digits[b & 15];
        }
    }
}

static void read_all(int fd, Text *t) {
    for (;;) {
        need(t, 65536);
        ssize_t got = read(fd, t->at + t->len, 65536);
        if (got < 0 && errno == EINTR) continue;
        if (got < 0) die("read");
        if (got == 0) return;
        t->len += (size_t)got;
    }
}

static bool begins(const uint8_t *at, size_t len, const char *with) { return len >= strlen(with) && !memcmp(at, with, strlen(with)); }
static bool is(const uint8_t *at, size_t len, const char *what) { return len == strlen(what) && !memcmp(at, what, len); }

// ---- inputs

static uint64_t state;

static uint64_t draw(void) {
    uint64_t z = (state += 0x9e3779b97f4a7c15u);
    z = (z ^ (z >> 30)) * 0xbf58476d1ce4e5b9u;
    z = (z ^ (z >> 27)) * 0x94d049bb133111ebu;
    return z ^ (z >> 31);
}

static size_t below(size_t n) { return n ? (size_t)(draw() % n) : 0; }

static Text *seeds;
static size_t seed_count;

static int is_file(const struct dirent *it) { return it->d_name[0] != '.'; }

static int by_name(const struct dirent **a, const struct dirent **b) { return strcmp((*a)->d_name, (*b)->d_name); }

static void read_seeds(const char *folder) {
    struct dirent **names;
    int count = scandir(folder, &names, is_file, by_name);
    if (count <= 0) die(folder);
    seeds = calloc((size_t)count, sizeof *seeds);
    for (int i = 0; i < count; i++) {
        char path[4096];
        snprintf(path, sizeof path, "%s/%s", folder, names[i]->d_name);
        int fd = open(path, O_RDONLY);
        if (fd < 0) die(path);
        read_all(fd, &seeds[seed_count++]);
        close(fd);
    }
}

static const char *numbers[] = {"0", "1", "-1", "01", "-0", "7", "63", "64", "127", "128", "255", "256", "4095", "4096", "4097", "65535", "65536",
    "1048575", "1048576", "1048577", "2097152", "2097153", "1000000000", "1000000001", "-1000000000", "-1000000001", "2147483647", "2147483648",
    "4294967295", "4294967296", "9007199254740991", "9007199254740992", "9223372036854775807", "9223372036854775808", "-9223372036854775808",
    "18446744073709551615", "18446744073709551616", "1.5", "2e3", "1e999", "-", "inf", "-inf", "+inf", "nan"};
static const char *pieces[] = {"\r\n", "\r", "\n", "*", "$", "*1\r\n", "$0\r\n\r\n", "*2\r\n$4\r\nPING\r\n", "{", "}", "[", "]", "[[", "]]", ",", ":",
    "\"", "\\", "\\u0041", "\\ud800", "\"type\"", "\"Point\"", "\"Polygon\"", "\"coordinates\"", "null", "true", "{\"type\":", " ", "\t", "\xff", "\xc3\xa9",
    "\xed\xa0\x80", "\xf0\x9f\x98\x80", "%", "%0D%0A", "%zz", "~", "\x01", "\x01TFL", "FIELD", "EX", "WHERE", "WHEREIN", "FENCE", "ROAM", "DETECT",
    "COMMANDS", "LIMIT", "CURSOR", "MATCH", "POINT", "BOUNDS", "CIRCLE", "OBJECT", "NX", "XX", "ASC", "DESC", "COUNT", "IDS", "open", "feed 1 0 ",
    "take 1", "close 1", "tick 5", "step", "reopen", "#"};
#define COUNT(list) (sizeof(list) / sizeof *(list))

static void replace(Text *t, size_t at, size_t len, const void *by, size_t by_len) {
    need(t, by_len);
    memmove(t->at + at + by_len, t->at + at + len, t->len - at - len);
    if (by_len) memcpy(t->at + at, by, by_len);
    t->len = t->len - len + by_len;
}

// Puts another number in the place of some digits of a text, or at its end.
static void bend_number(Text *t) {
    size_t at = below(t->len + 1), len = 0;
    const char *number = numbers[below(COUNT(numbers))];
    while (at < t->len && !(t->at[at] >= '0' && t->at[at] <= '9')) at++;
    while (at + len < t->len && t->at[at + len] >= '0' && t->at[at + len] <= '9') len++;
    replace(t, at, len, number, strlen(number));
}

// Bends a text at one place.
static void bend(Text *t) {
    size_t at = below(t->len + 1), rest = t->len - at, len = below(rest < 16 ? rest + 1 : 16);
    const Text *other = &seeds[below(seed_count)];
    const char *word;
    switch (below(12)) {
    case 0:
        if (rest) t->at[at] ^= (uint8_t)(1u << below(8));
        break;
    case 1:
        if (rest) t->at[at] = (uint8_t)draw();
        break;
    case 2:
        replace(t, at, len, NULL, 0);
        break;
    case 3:
        t->len = at;
        break;
    case 4: {
        uint8_t again[16];
        memcpy(again, t->at + at, len);
        for (size_t times = 1 + below(8); times > 0; times--) replace(t, at, 0, again, len);
        break;
    }
    case 5:
    case 6:
        word = pieces[below(COUNT(pieces))];
        replace(t, at, 0, word, strlen(word));
        break;
    case 7:
        word = pieces[below(COUNT(pieces))];
        replace(t, at, len, word, strlen(word));
        break;
    case 8:
    case 9:
        bend_number(t);
        break;
    case 10: {
        size_t from = below(other->len + 1), some = below(other->len - from + 1);
        replace(t, at, len, other->at + from, some);
        break;
    }
    default: {
        size_t from = below(other->len + 1);
        t->len = at;
        put(t, other->at + from, other->len - from);
    }
    }
    if (t->len > MOST_BYTES) t->len = MOST_BYTES;
}

// ---- the request reader of docs/FORMATS.md, byte by byte

typedef struct { size_t requests; const char *fault; } Fed;

// Reads the number at a place. Past the end: the place is the length, and there is no fault.
static uint64_t read_number(const uint8_t *at, size_t len, size_t *p, uint64_t most, bool some, const char *over, const char **fault) {
    uint64_t n = 0;
    for (size_t digits = 0; *p < len; (*p)++, digits++) {
        uint8_t b = at[*p];
        if (b == '\r' && digits > 0) break;
        if (b < '0' || b > '9' || (digits > 0 && n == 0) || (some && digits == 0 && b == '0')) {
            *fault = "bad length";
            return 0;
        }
        n = n * 10 + (b - '0');
        if (n > most) {
            *fault = over;
            return 0;
        }
    }
    if (*p < len) (*p)++;
    if (*p >= len) return n;
    if (at[(*p)++] != '\n') *fault = "bad end";
    return n;
}

// How many bytes the first request has; 0 where it does not end here, or there is a fault.
static size_t request_of(const uint8_t *at, size_t len, const char **fault) {
    size_t p = 0;
    *fault = NULL;
    if (len == 0) return 0;
    if (at[p++] != '*') {
        *fault = "bad type";
        return 0;
    }
    uint64_t left = 2097152, words = read_number(at, len, &p, 4096, true, "too many words", fault);
    if (*fault || at[p - 1] != '\n') return 0;
    for (; words > 0; words--) {
        if (p >= len) return 0;
        if (at[p++] != '$') {
            *fault = "bad type";
            return 0;
        }
        uint64_t bytes = read_number(at, len, &p, left < 1048576 ? left : 1048576, false, "too long", fault);
        if (*fault || at[p - 1] != '\n') return 0;
        left -= bytes;
        if (len - p <= bytes) return 0;
        p += bytes;
        if (at[p++] != '\r') {
            *fault = "bad end";
            return 0;
        }
        if (p >= len) return 0;
        if (at[p++] != '\n') {
            *fault = "bad end";
            return 0;
        }
    }
    return p;
}

static Fed fed_by(const uint8_t *at, size_t len) {
    Fed fed = {0, NULL};
    for (;;) {
        size_t took = request_of(at, len, &fed.fault);
        if (took == 0) return fed;
        fed.requests++;
        at += took;
        len -= took;
    }
}

// ---- JSON of RFC 8259 in UTF-8, at most 127 deep, whose numbers have a double

typedef struct { const uint8_t *at, *end; int depth; } Json;

static void pass_space(Json *j) {
    while (j->at < j->end && strchr(" \t\r\n", *j->at) && *j->at) j->at++;
}

static bool next_is(Json *j, char c) {
    if (j->at < j->end && *j->at == (uint8_t)c) {
        j->at++;
        return true;
    }
    return false;
}

static bool pass_word(Json *j, const char *word) {
    if (!begins(j->at, (size_t)(j->end - j->at), word)) return false;
    j->at += strlen(word);
    return true;
}

static bool pass_hex(Json *j, unsigned *value) {
    *value = 0;
    for (int i = 0; i < 4; i++, j->at++) {
        if (j->at >= j->end) return false;
        uint8_t c = *j->at;
        unsigned d = c >= '0' && c <= '9' ? c - '0' + 0u : (c | 32) >= 'a' && (c | 32) <= 'f' ? (c | 32) - 'a' + 10u : 99;
        if (d > 15) return false;
        *value = *value * 16 + d;
    }
    return true;
}

static bool pass_escape(Json *j) {
    unsigned value, low;
    if (j->at >= j->end) return false;
    uint8_t c = *j->at++;
    if (c != 'u') return c && strchr("\"\\/bfnrt", c);
    if (!pass_hex(j, &value)) return false;
    // A half of a pair stands beside the other one: text of UTF-8 has no place for it alone.
    if (value >= 0xdc00 && value < 0xe000) return false;
    if (value < 0xd800 || value >= 0xe000) return true;
    return next_is(j, '\\') && next_is(j, 'u') && pass_hex(j, &low) && low >= 0xdc00 && low < 0xe000;
}

static bool pass_string(Json *j) {
    while (j->at < j->end) {
        uint8_t c = *j->at++;
        if (c == '"') return true;
        if (c < 32 || (c == '\\' && !pass_escape(j))) return false;
    }
    return false;
}

static bool pass_digits(Json *j) {
    const uint8_t *from = j->at;
    while (j->at < j->end && *j->at >= '0' && *j->at <= '9') j->at++;
    return j->at > from;
}

static bool pass_figures(Json *j) {
    next_is(j, '-');
    if (!next_is(j, '0') && !pass_digits(j)) return false;
    if (next_is(j, '.') && !pass_digits(j)) return false;
    if (next_is(j, 'e') || next_is(j, 'E')) {
        if (!next_is(j, '+')) next_is(j, '-');
        return pass_digits(j);
    }
    return true;
}

static bool pass_number(Json *j) {
    char figures[MOST_BYTES + 1];
    const uint8_t *from = j->at;
    if (!pass_figures(j)) return false;
    size_t len = (size_t)(j->at - from);
    if (len > MOST_BYTES) return false;
    memcpy(figures, from, len);
    figures[len] = 0;
    return isfinite(strtod(figures, NULL));
}

static bool pass_value(Json *j);

static bool pass_items(Json *j, char end, bool named) {
    if (++j->depth > 127) return false;
    pass_space(j);
    bool is_done = next_is(j, end);
    while (!is_done) {
        if (named) {
            pass_space(j);
            if (!next_is(j, '"') || !pass_string(j)) return false;
            pass_space(j);
            if (!next_is(j, ':')) return false;
        }
        if (!pass_value(j)) return false;
        is_done = next_is(j, end);
        if (!is_done && !next_is(j, ',')) return false;
    }
    j->depth--;
    return true;
}

// A value, with the space around it.
static bool pass_value(Json *j) {
    pass_space(j);
    bool passed = next_is(j, '{') ? pass_items(j, '}', true)
                : next_is(j, '[') ? pass_items(j, ']', false)
                : next_is(j, '"') ? pass_string(j)
                : pass_word(j, "true") || pass_word(j, "false") || pass_word(j, "null") || pass_number(j);
    pass_space(j);
    return passed;
}

static bool is_utf8(const uint8_t *at, size_t len) {
    for (size_t i = 0; i < len;) {
        uint8_t c = at[i++];
        int more = c < 0x80 ? 0 : c >= 0xc2 && c < 0xe0 ? 1 : c >= 0xe0 && c < 0xf0 ? 2 : c >= 0xf0 && c < 0xf5 ? 3 : -1;
        if (more < 0 || i + (size_t)more > len) return false;
        if (more >= 2 && ((c == 0xe0 && at[i] < 0xa0) || (c == 0xed && at[i] > 0x9f) || (c == 0xf0 && at[i] < 0x90) || (c == 0xf4 && at[i] > 0x8f)))
            return false;
        for (; more > 0; more--)
            if ((at[i++] & 0xc0) != 0x80) return false;
    }
    return true;
}

static bool is_json(const uint8_t *at, size_t len) {
    Json j = {at, at + len, 0};
    return is_utf8(at, len) && pass_value(&j) && j.at == j.end;
}

// ---- lines of a script

static bool is_number(const uint8_t *at, size_t len, uint64_t most) {
    uint64_t n = 0;
    if (len == 0 || len > 16 || (len > 1 && at[0] == '0')) return false;
    for (size_t i = 0; i < len; i++) {
        if (at[i] < '0' || at[i] > '9') return false;
        n = n * 10 + (at[i] - '0');
    }
    return n <= most;
}

static bool is_line(const uint8_t *at, size_t len) {
    static const uint64_t last_session = 4294967295u, last_moment = 9007199254740991u;
    if (len > 1048576) return false;
    if (len == 0 || at[0] == '#' || is(at, len, "open") || is(at, len, "step") || is(at, len, "reopen")) return true;
    if (begins(at, len, "take ")) return is_number(at + 5, len - 5, last_session);
    if (begins(at, len, "close ")) return is_number(at + 6, len - 6, last_session);
    if (begins(at, len, "tick ")) return is_number(at + 5, len - 5, last_moment);
    if (!begins(at, len, "feed ")) return false;
    at += 5;
    len -= 5;
    const uint8_t *space = memchr(at, ' ', len);
    if (!space || !is_number(at, (size_t)(space - at), last_session)) return false;
    len -= (size_t)(space - at) + 1;
    at = space + 1;
    space = memchr(at, ' ', len);
    if (!space || !is_number(at, (size_t)(space - at), last_moment)) return false;
    len -= (size_t)(space - at) + 1;
    at = space + 1;
    for (size_t i = 0; i < len; i++)
        if (at[i] <= ' ' || at[i] > '~') return false;
    return len > 0;
}

// The number of the first line that is none, from 1 on; 0 where there is none.
static size_t line_fault(const uint8_t *at, size_t len) {
    for (size_t number = 1; len > 0; number++) {
        const uint8_t *end = memchr(at, '\n', len);
        size_t line = end ? (size_t)(end - at) : len;
        if (!is_line(at, line)) return number;
        at += line;
        len -= line;
        if (len) at++, len--;
    }
    return 0;
}

// ---- a process

static const char *program;
static char folder[256];

static double now(void) {
    struct timespec t;
    clock_gettime(CLOCK_MONOTONIC, &t);
    return (double)t.tv_sec + (double)t.tv_nsec / 1e9;
}

static void make_folder(void) {
    const char *tmp = getenv("TMPDIR");
    snprintf(folder, sizeof folder, "%s/fuzz-XXXXXX", tmp ? tmp : "/tmp");
    if (!mkdtemp(folder)) die(folder);
}

static void empty_folder(void) {
    char path[300];
    const char *names[] = {"tile-data/a.log", "tile-data/b.log"};
    for (int i = 0; i < 2; i++) {
        snprintf(path, sizeof path, "%s/%s", folder, names[i]);
        unlink(path);
    }
}

static void drop_folder(void) {
    char path[300];
    empty_folder();
    snprintf(path, sizeof path, "%s/tile-data", folder);
    rmdir(path);
    rmdir(folder);
}

typedef struct { pid_t pid; int out; } Process;

// The program, with a script for its standard input; without one the system ends it after ten seconds.
static Process start(const char *word, const Text *script) {
    int in = memfd_create("script", MFD_CLOEXEC), out[2];
    if (in < 0 || pipe2(out, O_CLOEXEC) < 0) die("pipe");
    for (size_t at = 0; at < script->len;) {
        ssize_t wrote = write(in, script->at + at, script->len - at);
        if (wrote < 0) die("memfd");
        at += (size_t)wrote;
    }
    lseek(in, 0, SEEK_SET);
    pid_t pid = fork();
    if (pid < 0) die("fork");
    if (pid == 0) {
        int nothing = open("/dev/null", O_WRONLY);
        prctl(PR_SET_PDEATHSIG, SIGKILL);
        if (chdir(folder) < 0) _exit(126);
        if (!script->len) alarm(10);
        dup2(in, 0);
        dup2(out[1], 1);
        dup2(nothing, 2);
        execl(program, "tile_server", word, (char *)NULL);
        _exit(127);
    }
    close(in);
    close(out[1]);
    return (Process){pid, out[0]};
}

// ---- what has to come

typedef enum { SESSION, CALLS, FRAMES, OK, PONG, STORED, FORMS } What;
typedef struct { What what; size_t count; const char *fault; size_t input; } Step;
typedef struct { Step *at; size_t len, room; } Steps;

static void wants(Steps *s, What what, size_t count, const char *fault, size_t input) {
    if (s->len == s->room) {
        s->room = s->room * 2 + 64;
        s->at = realloc(s->at, s->room * sizeof *s->at);
        if (!s->at) die("realloc");
    }
    s->at[s->len++] = (Step){what, count, fault, input};
}

// What was seen of the step at hand, and of all.
typedef struct {
    Steps steps;
    size_t step, seen;
    bool was_ok, was_fault, was_stored;
    uint64_t calls, faults, refused, accepted;
} Check;

static const char *refusals[] = {"not json", "not spatial", "bad type", "bad position", "coordinate is not a whole number", "coordinate out of range",
    "too few positions", "ring is not closed", "too many positions"};

static Text inputs[BATCH];
static size_t input_count;

static bool is_frame(const uint8_t *at, size_t len) {
    return len > 13 && begins(at, len, "frame ") && strchr("+-:$*", at[6]) && !memcmp(at + len - 6, "%0D%0A", 6);
}

static bool is_call(const uint8_t *at, size_t len) { return is(at, len, "ok") || is(at, len, "full") || is(at, len, "gone"); }

// The line of a frame that refuses something for a reason.
static bool is_refusal(const uint8_t *at, size_t len, const char *what, const char *reason) {
    char plain[128];
    static Text line;
    line.len = 0;
    int bytes = snprintf(plain, sizeof plain, "-ERR %s: %s\r\n", what, reason);
    put(&line, "frame ", 6);
    put_escaped(&line, (const uint8_t *)plain, (size_t)bytes);
    return len == line.len && !memcmp(at, line.at, len);
}

// A line of what becomes of a text: of the SET, of the GET, of the DEL.
static bool is_stored(Check *c, const Step *step, const uint8_t *at, size_t len) {
    static Text line;
    const Text *text = &inputs[step->input];
    if (c->seen == 0) {
        bool json = is_json(text->at, text->len);
        c->was_stored = is(at, len, "frame +OK%0D%0A");
        c->accepted += c->was_stored;
        c->refused += !c->was_stored;
        if (c->was_stored) return json;
        for (size_t i = 0; i < COUNT(refusals); i++)
            if (is_refusal(at, len, "invalid object", refusals[i])) return json == (i > 0);
        return false;
    }
    if (!c->was_stored) return is(at, len, c->seen == 1 ? "frame $-1%0D%0A" : "frame :0%0D%0A");
    if (c->seen == 2) return is(at, len, "frame :1%0D%0A");
    line.len = 0;
    say(&line, "frame $%zu%%0D%%0A", text->len);
    put_escaped(&line, text->at, text->len);
    put(&line, "%0D%0A", 6);
    return len == line.len && !memcmp(at, line.at, len);
}

static bool is_form(const uint8_t *at, size_t len) {
    return is_call(at, len) || is(at, len, "dead") || is(at, len, "empty") || is(at, len, "ended") || is(at, len, "toomany") || is_frame(at, len)
        || begins(at, len, "session ") || begins(at, len, "reopened ") || begins(at, len, "script fault at line ");
}

static void go_on(Check *c) {
    c->step++;
    c->seen = 0;
}

// A line that was printed. Whether it may stand there.
static bool hear(Check *c, const uint8_t *at, size_t len) {
    for (;;) {
        if (c->step >= c->steps.len) return false;
        const Step *step = &c->steps.at[c->step];
        switch (step->what) {
        case SESSION: {
            char line[40];
            snprintf(line, sizeof line, "session %zu", step->count);
            c->was_ok = c->was_fault = false;
            go_on(c);
            return is(at, len, line);
        }
        case CALLS:
            if (c->seen == step->count) {
                go_on(c);
                continue;
            }
            c->seen++;
            c->calls++;
            c->was_ok = is(at, len, "ok");
            return is_call(at, len);
        case FRAMES:
            if (is_frame(at, len)) {
                // The fault of a broken protocol is the last frame of its session.
                if (c->was_fault) return false;
                c->was_fault = step->fault && is_refusal(at, len, "protocol error", step->fault);
                return true;
            }
            if (is(at, len, "empty") || is(at, len, "ended")) return true;
            if (step->fault && c->was_ok && !c->was_fault) return false;
            c->faults += step->fault && c->was_fault;
            go_on(c);
            continue;
        case OK:
            c->was_fault = false;
            go_on(c);
            return is(at, len, "ok");
        case PONG:
            go_on(c);
            return is(at, len, "frame +PONG%0D%0A");
        case STORED: {
            bool fits = is_stored(c, step, at, len);
            if (++c->seen == 3) go_on(c);
            return fits;
        }
        case FORMS:
            return is_form(at, len);
        }
    }
}

// ---- scripts

static void feed(Text *script, size_t session, size_t moment, const uint8_t *at, size_t len) {
    say(script, "feed %zu %zu ", session, moment);
    put_escaped(script, at, len);
    put_byte(script, '\n');
}

static void feed_words(Text *script, size_t moment, const char *words) {
    Text request = {0};
    size_t count = 1;
    for (const char *at = words; *at; at++) count += *at == ' ';
    say(&request, "*%zu\r\n", count);
    for (const char *at = words; count > 0; count--) {
        size_t len = strcspn(at, " ");
        put_bulk(&request, at, len);
        at += len + 1;
    }
    feed(script, 1, moment, request.at, request.len);
    free(request.at);
}

// A session of its own is fed the bytes, its answers are taken, and session 1 is answered behind it.
static void script_requests(Text *script, Check *c, size_t input, size_t from) {
    const Text *bytes = &inputs[input];
    size_t session = input - from + 2, moment = input;
    Fed fed = fed_by(bytes->at, bytes->len);
    say(script, "open\n");
    wants(&c->steps, SESSION, session, NULL, input);
    feed(script, session, moment, bytes->at, bytes->len);
    wants(&c->steps, CALLS, fed.requests + (fed.fault != NULL), NULL, input);
    for (size_t takes = 2 + fed.requests / 32; takes > 0; takes--) say(script, "take %zu\n", session);
    wants(&c->steps, FRAMES, 0, fed.fault, input);
    say(script, "close %zu\ntake %zu\n", session, session);
    wants(&c->steps, OK, 0, NULL, input);
    wants(&c->steps, FRAMES, 0, NULL, input);
    // What was set does not grow beyond what some inputs set.
    bool clears = input % 64 == 63;
    if (clears) {
        feed_words(script, moment, "FLUSHDB");
        say(script, "take 1\n");
        wants(&c->steps, OK, 0, NULL, input);
        wants(&c->steps, FRAMES, 0, NULL, input);
    }
    feed_words(script, moment, "PING");
    say(script, "take 1\n");
    wants(&c->steps, OK, 0, NULL, input);
    wants(&c->steps, PONG, 0, NULL, input);
}

static void script_objects(Text *script, Check *c, size_t input) {
    const Text *text = &inputs[input];
    Text requests = {0};
    put(&requests, "*5\r\n$3\r\nSET\r\n$1\r\nk\r\n$1\r\na\r\n$6\r\nOBJECT\r\n", 39);
    put_bulk(&requests, text->at, text->len);
    say(&requests, "*3\r\n$3\r\nGET\r\n$1\r\nk\r\n$1\r\na\r\n*3\r\n$3\r\nDEL\r\n$1\r\nk\r\n$1\r\na\r\n");
    feed(script, 1, 0, requests.at, requests.len);
    free(requests.at);
    say(script, "take 1\n");
    wants(&c->steps, CALLS, 3, NULL, input);
    wants(&c->steps, STORED, 0, NULL, input);
}

// ---- what is found

static const char *kind;
static uint64_t found, slow, slow_once, processes;

static void tell(uint64_t number, const char *what, const Text *script, const char *line) {
    char path[256];
    found++;
    fflush(stdout);
    fprintf(stderr, "fuzz: %s, input %llu: %s%s%s\n", kind, (unsigned long long)number, what, line ? ": " : "", line ? line : "");
    if (found > MOST_FOUND) return;
    snprintf(path, sizeof path, "found-%s-%llu", kind, (unsigned long long)number);
    int fd = open(path, O_WRONLY | O_CREAT | O_TRUNC, 0644);
    if (fd < 0) die(path);
    for (size_t at = 0; at < script->len;) {
        ssize_t wrote = write(fd, script->at + at, script->len - at);
        if (wrote < 0) die(path);
        at += (size_t)wrote;
    }
    close(fd);
}

// ---- runs of a process

typedef struct { int status; double longest; size_t slowest; bool is_wrong; char line[512]; size_t input; } Ran;

// Runs a script, hears each line of its output, and says how it went.
static Ran run(const char *word, const Text *script, Check *c, Text *output) {
    Ran ran = {0};
    empty_folder();
    Process it = start(word, script);
    processes++;
    output->len = 0;
    size_t heard = 0, input = 0;
    double begun = now(), last = begun;
    for (;;) {
        struct pollfd ready = {it.out, POLLIN, 0};
        int count = poll(&ready, 1, 200);
        if (count < 0 && errno != EINTR) die("poll");
        if (count > 0) {
            need(output, 65536);
            ssize_t got = read(it.out, output->at + output->len, 65536);
            if (got < 0) die("read");
            if (got == 0) break;
            output->len += (size_t)got;
            uint8_t *end;
            while (!ran.is_wrong && (end = memchr(output->at + heard, '\n', output->len - heard))) {
                size_t len = (size_t)(end - output->at) - heard;
                if (!hear(c, output->at + heard, len)) {
                    ran.is_wrong = true;
                    snprintf(ran.line, sizeof ran.line, "%.*s", (int)len, output->at + heard);
                }
                if (!ran.is_wrong) heard += len + 1;
            }
        }
        size_t at = c->step < c->steps.len ? c->steps.at[c->step].input : input_count;
        double time = now();
        if (time - last > ran.longest) {
            ran.longest = time - last;
            ran.slowest = input;
        }
        if (at != input) {
            input = at;
            last = time;
        }
        if (time - last > 10) {
            kill(it.pid, SIGKILL);
            break;
        }
    }
    close(it.out);
    while (waitpid(it.pid, &ran.status, 0) < 0)
        if (errno != EINTR) die("waitpid");
    // What is left to come may be frames that need not come.
    while (!ran.is_wrong && c->step < c->steps.len) {
        const Step *step = &c->steps.at[c->step];
        bool may_end = step->what == FORMS || (step->what == CALLS && c->seen == step->count)
                    || (step->what == FRAMES && !(step->fault && c->was_ok && !c->was_fault));
        if (!may_end) {
            ran.is_wrong = true;
            snprintf(ran.line, sizeof ran.line, "nothing more came");
        } else {
            go_on(c);
        }
    }
    ran.input = c->step < c->steps.len ? c->steps.at[c->step].input : input_count ? input_count - 1 : 0;
    return ran;
}

static bool ended_with(const Ran *ran, int status) { return WIFEXITED(ran->status) && WEXITSTATUS(ran->status) == status; }

static void begin(Check *c) {
    c->steps.len = c->step = c->seen = 0;
    c->was_ok = c->was_fault = c->was_stored = false;
}

static void make_script(Text *script, Check *c, size_t from, size_t to) {
    script->len = 0;
    begin(c);
    if (!strcmp(kind, "lines")) {
        say(script, "open\nopen\n");
        for (size_t i = from; i < to; i++) {
            put(script, inputs[i].at, inputs[i].len);
            put_byte(script, '\n');
        }
        wants(&c->steps, FORMS, 0, NULL, from);
        return;
    }
    say(script, "open\n");
    wants(&c->steps, SESSION, 1, NULL, from);
    for (size_t i = from; i < to; i++)
        if (!strcmp(kind, "requests"))
            script_requests(script, c, i, from);
        else
            script_objects(script, c, i);
}

// Plays inputs as one script. How far it came: where one was wrong, behind that.
static size_t play(size_t from, size_t to, uint64_t first, Check *c) {
    static Text script, output;
    bool is_lines = !strcmp(kind, "lines");
    make_script(&script, c, from, to);
    Ran ran = run("replay", &script, c, &output);
    size_t fault = is_lines ? line_fault(script.at, script.len) : 0;
    char line[64] = "";
    if (fault) snprintf(line, sizeof line, "script fault at line %zu\n", fault);
    bool ends = output.len >= strlen(line) && !memcmp(output.at + output.len - strlen(line), line, strlen(line));
    if (ran.is_wrong || !ended_with(&ran, fault ? 2 : 0) || !ends) {
        bool is_signal = WIFSIGNALED(ran.status);
        snprintf(line, sizeof line, "%s %d", is_signal ? "signal" : "status", is_signal ? WTERMSIG(ran.status) : WEXITSTATUS(ran.status));
        tell(first + ran.input, line, &script, ran.is_wrong ? ran.line : "another end");
        return is_lines ? to : ran.input + 1;
    }
    if (ran.longest > 1 && to - from == 1) {
        slow++;
        tell(first + from, "over a second", &script, NULL);
    } else if (ran.longest > 1) {
        // Once more, by itself: the machine may have been busy.
        size_t again = ran.slowest < to ? ran.slowest : to - 1;
        slow_once++;
        play(again, again + 1, first, c);
    }
    return to;
}

// ---- logs

// Where a log is damaged, or that it stands; also the places where requests stand that may be no records.
typedef struct { enum { STANDS, DAMAGED, ROTTED } how; char side; uint64_t place, generation; bool is_fresh; uint64_t *maybe; size_t maybes; } Opening;

static uint64_t big(const uint8_t *at) {
    uint64_t n = 0;
    for (int i = 0; i < 8; i++) n = n << 8 | at[i];
    return n;
}

static bool is_open(const uint8_t *at, size_t len) { return len >= 17 && at[0] == 1; }

static int wrong_head(const uint8_t *at) {
    if (memcmp(at + 1, "TFL", 3)) return 1;
    if (at[4] < 1 || at[4] > 3) return 4;
    if (at[5] || at[6] || at[7]) return 5;
    uint64_t generation = big(at + 8);
    return generation == 0 || (at[4] < 3 && generation == UINT64_MAX) ? 8 : 0;
}

static bool is_first_word(const uint8_t *at, size_t len) {
    static const char *words[] = {"$3\r\nSET\r\n", "$3\r\nDEL\r\n", "$4\r\nDROP\r\n", "$7\r\nFLUSHDB\r\n", "$7\r\nSETCHAN\r\n", "$7\r\nDELCHAN\r\n"};
    const uint8_t *end = memchr(at, '\n', len);
    if (!end) return false;
    end++;
    for (size_t i = 0; i < COUNT(words); i++)
        if (begins(end, len - (size_t)(end - at), words[i])) return true;
    return false;
}

static Opening damaged(Opening o, char side, uint64_t place) {
    o.how = DAMAGED;
    o.side = side;
    o.place = place;
    return o;
}

static Opening opening_of(const uint8_t *a, size_t a_len, const uint8_t *b, size_t b_len) {
    static uint64_t maybe[MOST_BYTES];
    Opening o = {STANDS, 'A', 0, 1, true, maybe, 0};
    bool a_open = is_open(a, a_len), b_open = is_open(b, b_len);
    if (a_len > 17 && a[0] != 1 && b_len == 0) {
        o.how = ROTTED;
        return o;
    }
    if (a_open && wrong_head(a)) return damaged(o, 'A', (uint64_t)wrong_head(a));
    if (b_open && wrong_head(b)) return damaged(o, 'B', (uint64_t)wrong_head(b));
    if (a_open && b_open && big(a + 8) == big(b + 8)) return damaged(o, 'B', 8);
    if (!a_open && !b_open) return b_len ? damaged(o, 'A', 0) : o;
    if (!a_open || (b_open && big(b + 8) > big(a + 8))) {
        o.side = 'B';
        a = b;
        a_len = b_len;
    }
    o.is_fresh = false;
    o.generation = big(a + 8) + (a[4] < 3);
    size_t p = 16;
    for (;;) {
        if (p >= a_len) return damaged(o, o.side, p);
        if (a[p] != 1) return o;
        if (a_len - p - 1 < 8 || big(a + p + 1) > a_len - p - 9) return damaged(o, o.side, p + 1);
        size_t end = p + 9 + (size_t)big(a + p + 1);
        for (p += 9; p < end;) {
            const char *fault;
            size_t took = request_of(a + p, end - p, &fault);
            if (took == 0 || !is_first_word(a + p, took)) return damaged(o, o.side, p);
            o.maybe[o.maybes++] = p;
            p += took;
        }
    }
}

static bool is_opened(const Opening *o, const Ran *ran, const Text *output) {
    char line[128];
    int status = o->how == STANDS ? 0 : o->how == DAMAGED ? 6 : 5;
    unsigned long long objects, channels, generation, place;
    char side, end;
    Text text = {0};
    put(&text, output->at, output->len);
    put_byte(&text, 0);
    const char *said = (const char *)text.at;
    bool fits = false;
    if (ended_with(ran, 6) && sscanf(said, "damaged side %c at %llu%c", &side, &place, &end) == 3) {
        snprintf(line, sizeof line, "damaged side %c at %llu\n", side, place);
        fits = !strcmp(said, line) && side == o->side && o->how == DAMAGED && place == o->place;
        for (size_t i = 0; i < o->maybes; i++) fits = fits || (!strcmp(said, line) && side == o->side && place == o->maybe[i]);
    } else if (ended_with(ran, status) && o->how == ROTTED) {
        fits = !strcmp(said, "disk fault\n");
    } else if (ended_with(ran, status) && sscanf(said, "objects %llu channels %llu generation %llu%c", &objects, &channels, &generation, &end) == 4) {
        snprintf(line, sizeof line, "objects %llu channels %llu generation %llu\n", objects, channels, generation);
        fits = o->how == STANDS && !strcmp(said, line) && generation == o->generation && objects + channels <= o->maybes;
    }
    free(text.at);
    return fits;
}

static void write_side(const char *name, const uint8_t *at, size_t len) {
    char path[300];
    snprintf(path, sizeof path, "%s/tile-data", folder);
    mkdir(path, 0755);
    snprintf(path, sizeof path, "%s/tile-data/%s", folder, name);
    int fd = open(path, O_WRONLY | O_CREAT | O_TRUNC, 0644);
    if (fd < 0 || write(fd, at, len) != (ssize_t)len) die(path);
    close(fd);
}

static bool open_log(const Text *input, uint64_t number, Check *c) {
    static Text nothing, output;
    const uint8_t *mark = memmem(input->at, input->len, MARK, strlen(MARK));
    size_t a_len = mark ? (size_t)(mark - input->at) : input->len;
    const uint8_t *b = mark ? mark + strlen(MARK) : input->at + input->len;
    size_t b_len = input->len - (size_t)(b - input->at);
    Opening o = opening_of(input->at, a_len, b, b_len);
    for (int times = 1;; times++) {
        empty_folder();
        write_side("a.log", input->at, a_len);
        write_side("b.log", b, b_len);
        Process it = start("check", &nothing);
        processes++;
        Ran ran = {0};
        output.len = 0;
        double begun = now();
        read_all(it.out, &output);
        close(it.out);
        while (waitpid(it.pid, &ran.status, 0) < 0)
            if (errno != EINTR) die("waitpid");
        bool fits = is_opened(&o, &ran, &output);
        if (!fits) {
            char said[256];
            int status = WIFSIGNALED(ran.status) ? WTERMSIG(ran.status) : WEXITSTATUS(ran.status);
            snprintf(said, sizeof said, "%s %d, %.*s", WIFSIGNALED(ran.status) ? "signal" : "status", status, (int)(output.len > 100 ? 100 : output.len), output.at);
            tell(number, said, input, NULL);
            return false;
        }
        c->accepted += times == 1 && o.how == STANDS && ended_with(&ran, 0);
        c->refused += times == 1 && !ended_with(&ran, 0);
        if (now() - begun <= 1) return true;
        if (times == 2) {
            slow++;
            tell(number, "over a second", input, NULL);
            return true;
        }
        slow_once++;
    }
}

// ---- what is drawn

static void bend_often(Text *t, size_t most) {
    for (size_t times = 1 + below(most); times > 0; times--) bend(t);
}

// The words of a request, one of which is bent, or missing, or stands twice, or is another's.
static void put_bent_request(Text *out, const Text *request) {
    static Text words[MOST_BYTES / 6 + 8];
    size_t count = 0;
    const char *fault;
    if (request_of(request->at, request->len, &fault) != request->len) {
        put(out, request->at, request->len);
        return;
    }
    for (size_t p = strcspn((const char *)request->at, "\n") + 1; p < request->len;) {
        size_t len = strtoul((const char *)request->at + p + 1, NULL, 10);
        p += strcspn((const char *)request->at + p, "\n") + 1;
        words[count].len = 0;
        put(&words[count++], request->at + p, len);
        p += len + 2;
    }
    size_t at = below(count);
    Text *word = &words[at];
    switch (below(8)) {
    case 0:
        for (size_t i = at; i + 1 < count; i++) {
            Text next = words[i + 1];
            words[i + 1] = words[i];
            words[i] = next;
        }
        count -= count > 1;
        break;
    case 1:
        words[count].len = 0;
        put(&words[count++], word->at, word->len);
        break;
    case 2: {
        const char *piece = pieces[below(COUNT(pieces))];
        word->len = 0;
        put(word, piece, strlen(piece));
        break;
    }
    case 3: {
        const char *number = numbers[below(COUNT(numbers))];
        word->len = 0;
        put(word, number, strlen(number));
        break;
    }
    default:
        bend_often(word, 3);
    }
    say(out, "*%zu\r\n", count);
    for (size_t i = 0; i < count; i++) put_bulk(out, words[i].at, words[i].len);
}

static void put_requests(Text *out) {
    for (size_t count = 1 + below(3); count > 0; count--) {
        const Text *request = &seeds[below(seed_count)];
        if (below(3))
            put_bent_request(out, request);
        else
            put(out, request->at, request->len);
    }
    if (below(3) == 0) bend_often(out, 4);
}

static void put_big(Text *out, uint64_t n) {
    for (int i = 7; i >= 0; i--) put_byte(out, (uint8_t)(n >> 8 * i));
}

// A side: one of the seeds, or one of records that are seeds. Seeds that begin with a star are records.
static void put_side(Text *out) {
    const Text *one = &seeds[below(seed_count)];
    if (one->at[0] != '*' && below(2)) {
        put(out, one->at, one->len);
        return;
    }
    put(out, "\1TFL", 4);
    put_byte(out, below(16) ? (uint8_t)(1 + below(3)) : (uint8_t)draw());
    put(out, "\0\0\0", 3);
    put_big(out, below(8) ? 1 + below(3) : draw() | (below(2) ? 0 : UINT64_MAX << below(64)));
    for (size_t batches = below(4); batches > 0; batches--) {
        Text batch = {0};
        for (size_t records = below(4); records > 0; records--) {
            one = &seeds[below(seed_count)];
            if (one->at[0] != '*') continue;
            if (below(4) == 0)
                put_bent_request(&batch, one);
            else
                put(&batch, one->at, one->len);
        }
        put_byte(out, 1);
        put_big(out, batch.len + (below(16) ? 0 : below(3)));
        put(out, batch.at, batch.len);
        free(batch.at);
    }
    put_byte(out, 0);
}

static void draw_input(Text *out, uint64_t number, uint64_t seed) {
    state = seed;
    state = draw() ^ number;
    state = draw() ^ (uint8_t)kind[0];
    out->len = 0;
    if (!strcmp(kind, "requests")) {
        put_requests(out);
    } else if (!strcmp(kind, "logs")) {
        put_side(out);
        if (below(3) == 0) {
            put(out, MARK, strlen(MARK));
            put_side(out);
        }
        if (below(2)) bend_often(out, 3);
    } else {
        const Text *one = &seeds[below(seed_count)];
        bool is_lines = !strcmp(kind, "lines");
        put(out, one->at, one->len);
        if (!is_lines && below(2))
            for (size_t times = 1 + below(3); times > 0; times--) bend_number(out);
        else if (!is_lines || below(5) == 0)
            bend_often(out, 3);
        for (size_t i = 0; is_lines && i < out->len; i++)
            if (out->at[i] == '\n') out->at[i] = ' ';
    }
    if (out->len > MOST_BYTES) out->len = MOST_BYTES;
    if (out->len == 0 && strcmp(kind, "lines")) put_byte(out, '*');
}

// ---- main

static void run_all(uint64_t first, uint64_t last, uint64_t seed) {
    static Check c;
    static Text one;
    double begun = now();
    bool is_lines = !strcmp(kind, "lines");
    for (uint64_t number = first; number < last;) {
        if (!strcmp(kind, "logs")) {
            draw_input(&one, number, seed);
            open_log(&one, number++, &c);
            continue;
        }
        uint64_t begin_at = number;
        size_t most = is_lines ? LINES_BATCH : BATCH;
        for (input_count = 0; input_count < most && number < last;) {
            Text *input = &inputs[input_count++];
            draw_input(input, number++, seed);
            // A line that is none is the last of its script.
            if (is_lines && !is_line(input->at, input->len)) break;
        }
        for (size_t from = 0; from < input_count;) from = play(from, input_count, begin_at, &c);
    }
    printf("%s: %llu inputs, %llu processes, %.0f seconds; %llu calls, %llu broken protocols told, %llu accepted, %llu refused; %llu over a second, "
           "%llu once; %llu found\n",
        kind, (unsigned long long)(last - first), (unsigned long long)processes, now() - begun, (unsigned long long)c.calls,
        (unsigned long long)c.faults, (unsigned long long)c.accepted, (unsigned long long)c.refused, (unsigned long long)slow,
        (unsigned long long)slow_once, (unsigned long long)found);
}

// The input of standard input alone.
static void run_one(void) {
    static Check c;
    Text *input = &inputs[0];
    read_all(0, input);
    input_count = 1;
    if (!strcmp(kind, "logs"))
        open_log(input, 0, &c);
    else if (input->len > 0 && input->len <= 65536)
        play(0, 1, 0, &c);
}

#ifdef __AFL_COMPILER
__AFL_FUZZ_INIT();

static void count_right(size_t count) {
    char line[32];
    const char *path = getenv("DONE");
    int fd = path ? open(path, O_WRONLY | O_CREAT | O_APPEND, 0644) : -1;
    int len = snprintf(line, sizeof line, "%zu\n", count);
    if (fd < 0 || write(fd, line, (size_t)len) != len) die("DONE");
    close(fd);
}

// Plays the inputs that were drawn so far.
static void play_drawn(Check *c) {
    if (!strcmp(kind, "logs"))
        for (size_t i = 0; i < input_count; i++) open_log(&inputs[i], i, c);
    else
        for (size_t from = 0; from < input_count;) from = play(from, input_count, 0, c);
    if (found) abort();
    if (input_count) count_right(input_count);
    input_count = 0;
}

// Whether the plain reader takes the input for one that others may follow in its script. What it looks at guides what is drawn next.
static bool is_followed(const Text *input) {
    if (!strcmp(kind, "requests")) fed_by(input->at, input->len);
    if (!strcmp(kind, "objects")) is_json(input->at, input->len);
    return strcmp(kind, "lines") || is_line(input->at, input->len);
}

static void run_drawn(void) {
    static Check c;
    bool is_lines = !strcmp(kind, "lines"), is_log = !strcmp(kind, "logs");
    size_t most = is_log ? 1 : is_lines ? LINES_BATCH : BATCH;
    __AFL_INIT();
    make_folder();
    const uint8_t *at = __AFL_FUZZ_TESTCASE_BUF;
    while (__AFL_LOOP(INT_MAX)) {
        size_t len = (size_t)__AFL_FUZZ_TESTCASE_LEN;
        if (len == 0) continue;
        Text *input = &inputs[input_count++];
        input->len = 0;
        put(input, at, len < MOST_BYTES ? len : MOST_BYTES);
        for (size_t i = 0; is_lines && i < input->len; i++)
            if (input->at[i] == '\n') input->at[i] = ' ';
        // A line that is none is the last of its script.
        if (!is_followed(input) || input_count == most) play_drawn(&c);
    }
    play_drawn(&c);
}
#else
static void run_drawn(void) {
    fprintf(stderr, "fuzz: drawn wants afl-clang-fast to compile this\n");
    exit(2);
}
#endif

static uint64_t number_of(const char *word) { return strtoull(word, NULL, 10); }

int main(int argc, char **argv) {
    if (argc >= 3) kind = argv[2];
    if (argc == 8 && !strcmp(argv[1], "run")) {
        program = argv[6];
        read_seeds(argv[7]);
        make_folder();
        run_all(number_of(argv[3]), number_of(argv[4]), number_of(argv[5]));
    } else if (argc == 6 && !strcmp(argv[1], "show")) {
        Text input = {0};
        read_seeds(argv[5]);
        draw_input(&input, number_of(argv[3]), number_of(argv[4]));
        fwrite(input.at, 1, input.len, stdout);
        return 0;
    } else if (argc == 4 && !strcmp(argv[1], "one")) {
        program = argv[3];
        make_folder();
        run_one();
    } else if (argc == 4 && !strcmp(argv[1], "drawn")) {
        program = argv[3];
        run_drawn();
    } else {
        fprintf(stderr, "usage: see the head of fuzz.c\n");
        return 2;
    }
    drop_folder();
    if (found && !strcmp(argv[1], "one")) abort();
    return found ? 1 : 0;
}
