// Boost.Geometry's R-tree over the picks of a book, asked row by row with its incremental nearest iterators.
#include <boost/geometry.hpp>
#include <boost/geometry/index/rtree.hpp>

#include <cstdint>
#include <cstring>
#include <utility>
#include <vector>

namespace bg = boost::geometry;
namespace bgi = boost::geometry::index;

// Whole numbers below 2^53 are exact, and so are these squared distances.
using Spot = bg::model::point<double, 3, bg::cs::cartesian>;
using Box = bg::model::box<Spot>;
using Value = std::pair<Box, std::uint32_t>;
using Tree = bgi::rtree<Value, bgi::rstar<16>>;

struct Point {
    std::int32_t easting, northing, level;
};

struct Row {
    std::uint64_t distance;
    std::int32_t top;
    std::uint16_t pick;
};

static std::int32_t i32_at(const unsigned char *at) {
    std::int32_t value;
    std::memcpy(&value, at, 4);
    return value;
}

static unsigned u16_at(const unsigned char *at) { return at[0] + 256u * at[1]; }

// The file is lawful: the plain decoder has read it.
extern "C" void *boost_tree(const unsigned char *file, std::size_t) {
    unsigned nodes = u16_at(file);
    const unsigned char *entries = file + 2 + 4 * nodes + 2;
    std::vector<Value> values;
    for (unsigned node = 0; node < nodes; node++) {
        const unsigned char *record = file + 2 + 4 * node;
        if (record[0] != 0) continue;
        for (unsigned place = 0; place < record[1]; place++) {
            const unsigned char *e = entries + 26 * (u16_at(record + 2) + place);
            Spot low(i32_at(e), i32_at(e + 4), i32_at(e + 8));
            Spot high(i32_at(e + 12), i32_at(e + 16), i32_at(e + 20));
            values.emplace_back(Box(low, high), u16_at(e + 24));
        }
    }
    return new Tree(values.begin(), values.end());
}

extern "C" void boost_free(void *tree) { delete static_cast<Tree *>(tree); }

// The first rows of each query. With `ties`, all rows as far as the last of them too, for the comparison.
extern "C" std::size_t boost_rows(const void *held, const Point *queries, std::size_t count, std::size_t each, bool ties,
                                  Row *rows, std::size_t *ends) {
    const Tree &tree = *static_cast<const Tree *>(held);
    Row *row = rows;
    for (std::size_t i = 0; i < count; i++) {
        Spot query(queries[i].easting, queries[i].northing, queries[i].level);
        std::size_t told = 0;
        std::uint64_t last = 0;
        std::size_t wanted = ties ? tree.size() : each;
        for (auto it = tree.qbegin(bgi::nearest(query, static_cast<unsigned>(wanted))); it != tree.qend(); ++it) {
            std::uint64_t distance = static_cast<std::uint64_t>(bg::comparable_distance(query, it->first));
            if (told >= each && distance > last) break;
            last = distance;
            *row++ = Row{distance, static_cast<std::int32_t>(bg::get<bg::max_corner, 2>(it->first)),
                         static_cast<std::uint16_t>(it->second)};
            told++;
        }
        if (ends) ends[i] = row - rows;
    }
    return row - rows;
}
