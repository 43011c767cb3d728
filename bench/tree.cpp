// Does with an R*-tree of Boost.Geometry what `benchmarks tree COUNT SEED` does with ours: the same places in the same
// order, drawn by the same generator, the same windows and the same places whose ten nearest are sought. It prints the
// same lines.
//
// tree boxes COUNT SEED    each entry is a box and a number, as in our tree
// tree points COUNT SEED   each entry is a point and a number, which suffices for places alone
#include <algorithm>
#include <boost/geometry.hpp>
#include <boost/geometry/index/rtree.hpp>
#include <cmath>
#include <cstdint>
#include <cstdio>
#include <cstdlib>
#include <cstring>
#include <ctime>
#include <iterator>
#include <unistd.h>
#include <utility>
#include <vector>

namespace bg = boost::geometry;
namespace bgi = boost::geometry::index;

using Point = bg::model::point<int32_t, 2, bg::cs::cartesian>;
using Box = bg::model::box<Point>;

// A node of ours holds 16 too.
constexpr std::size_t most_in_node = 16;
constexpr std::size_t nearest = 10;
constexpr int64_t side_of_square = 1 << 30;
constexpr int64_t greatest_coordinate = 1000000000;

class Places {
public:
    explicit Places(uint64_t seed) : state(seed) {}

    Point draw_place() {
        int64_t x = draw();
        int64_t y = draw();
        return Point(x, y);
    }

    Box draw_box(int64_t side) {
        Point least = draw_place();
        int64_t x = std::min(bg::get<0>(least) + side, greatest_coordinate);
        int64_t y = std::min(bg::get<1>(least) + side, greatest_coordinate);
        return Box(least, Point(x, y));
    }

private:
    int64_t draw() {
        state = state * 6364136223846793005u + 1442695040888963407u;
        return int64_t(state >> 34) - side_of_square / 2;
    }

    uint64_t state;
};

// The side of a window in which ten of so many places stand, on average.
static int64_t window_side(uint64_t count) {
    uint64_t each = count ? uint64_t(side_of_square) * side_of_square / count : 0;
    unsigned __int128 area = std::min<unsigned __int128>((unsigned __int128)each * 10, UINT64_MAX);
    uint64_t root = std::sqrt((long double)area);
    while ((unsigned __int128)root * root > area) root--;
    while ((unsigned __int128)(root + 1) * (root + 1) <= area) root++;
    return root;
}

struct Tally {
    uint64_t pairs = 0, sum = 0;

    void add(std::size_t id) {
        pairs++;
        sum += id;
    }

    template <class Entries> void add_all(const Entries &entries) {
        for (const auto &entry : entries) add(entry.second);
    }
};

// Nanoseconds of processor time.
static uint64_t now() {
    timespec time;
    clock_gettime(CLOCK_PROCESS_CPUTIME_ID, &time);
    return time.tv_sec * 1000000000ull + time.tv_nsec;
}

static void tell(const char *kind, uint64_t count, Tally tally, uint64_t begun) {
    uint64_t took = now() - begun;
    std::printf("%s %lu %lu %lu\n", kind, tally.pairs, tally.sum, count ? took / count : 0);
}

// The bytes of this process that are in memory.
static uint64_t resident() {
    unsigned long all = 0, pages = 0;
    FILE *sizes = std::fopen("/proc/self/statm", "r");
    if (!sizes || std::fscanf(sizes, "%lu %lu", &all, &pages) != 2) std::exit(1);
    std::fclose(sizes);
    return pages * sysconf(_SC_PAGESIZE);
}

template <class Shape> static Shape shape_of(const Box &box);
template <> Box shape_of<Box>(const Box &box) { return box; }
template <> Point shape_of<Point>(const Box &box) { return box.min_corner(); }

template <class Shape> static void measure(uint64_t count, uint64_t seed) {
    using Entry = std::pair<Shape, std::size_t>;
    bgi::rtree<Entry, bgi::rstar<most_in_node>> tree;
    uint64_t empty = resident();
    uint64_t begun = now();
    Tally put;
    Places places(seed);
    for (uint64_t id = 0; id < count; id++) {
        tree.insert(Entry(shape_of<Shape>(places.draw_box(0)), id));
        put.add(id);
    }
    tell("insert", count, put, begun);
    std::printf("memory %lu\n", count ? (resident() - empty) / count : 0);

    uint64_t searches = count / 10;
    int64_t side = window_side(count);
    std::vector<Entry> found;
    begun = now();
    Tally met;
    Places corners(seed + 1);
    for (uint64_t i = 0; i < searches; i++) {
        found.clear();
        tree.query(bgi::intersects(corners.draw_box(side)), std::back_inserter(found));
        met.add_all(found);
    }
    tell("window", searches, met, begun);

    begun = now();
    Tally near;
    Places middles(seed + 2);
    for (uint64_t i = 0; i < searches; i++) {
        found.clear();
        tree.query(bgi::nearest(middles.draw_place(), nearest), std::back_inserter(found));
        near.add_all(found);
    }
    tell("nearest", searches, near, begun);

    begun = now();
    Tally taken;
    Places first(seed);
    for (uint64_t id = 0; id < searches; id++) {
        if (tree.remove(Entry(shape_of<Shape>(first.draw_box(0)), id))) taken.add(id);
    }
    tell("remove", searches, taken, begun);
}

int main(int words, char **word) {
    if (words != 4) return 2;
    uint64_t count = std::strtoull(word[2], nullptr, 10);
    uint64_t seed = std::strtoull(word[3], nullptr, 10);
    if (std::strcmp(word[1], "boxes") == 0) {
        measure<Box>(count, seed);
    } else if (std::strcmp(word[1], "points") == 0) {
        measure<Point>(count, seed);
    } else {
        return 2;
    }
}
