// The benchmark's lines on CGAL's Combinatorial_map, for a grid of cubes or one closed face.
//
//   cells grid SIDE RUNS      cells ring DARTS RUNS      cells sews SIDE RUNS      cells edges SIDE RUNS
//
// Prints what bench/src/cgal.rs reads: `hash NAME COUNT HASH`, by which the caller makes sure that the
// map and every list are the same as its own, and `line NAME NS NS ...`, one time for each run. Of a grid
// `sews` prints the sews alone, and `edges` the edges alone: their list, the least darts that the edges and
// vertices of all darts have, and the calls on the probes.

#include <CGAL/Combinatorial_map.h>

#include <algorithm>
#include <cstdint>
#include <cstdio>
#include <cstdlib>
#include <string>
#include <time.h>
#include <utility>
#include <vector>

// A dart carries its number: least darts need an order, and addresses are none that a user can keep.
struct Items {
  template <class Map> struct Dart_wrapper {
    typedef std::uint32_t Dart_info;
    typedef std::tuple<> Attributes;
  };
};
typedef CGAL::Combinatorial_map<3, Items> Map;
typedef Map::Dart_handle Dart;

// The thread's own time: on a shared machine, waiting for a core is nobody's cost.
static double now() {
  timespec at;
  clock_gettime(CLOCK_THREAD_CPUTIME_ID, &at);
  return 1e9 * static_cast<double>(at.tv_sec) + static_cast<double>(at.tv_nsec);
}

// What the clock itself takes, which is more than the shortest lines.
static double clock_time() {
  std::vector<double> empty;
  for (int run = 0; run < 1001; ++run) {
    const double start = now();
    empty.push_back(now() - start);
  }
  std::sort(empty.begin(), empty.end());
  return empty[500];
}
static const double clock_cost = clock_time();

static double since(double start) { return std::max(0.0, now() - start - clock_cost); }

static std::uint64_t fnv1a(const std::vector<std::uint32_t> &words) {
  std::uint64_t h = 0xcbf29ce484222325u;
  for (std::uint32_t word : words)
    h = (h ^ word) * 0x100000001b3u;
  return h;
}

static void print_line(const std::string &name, const std::vector<double> &times) {
  std::printf("line %s", name.c_str());
  for (double time : times)
    std::printf(" %.1f", time);
  std::printf("\n");
}

static void print_hash(const std::string &name, const std::vector<std::uint32_t> &words) {
  std::printf("hash %s %zu %016llx\n", name.c_str(), words.size(), static_cast<unsigned long long>(fnv1a(words)));
}

// One dart of each cell as CGAL's own range gives it: the first in the order of storage. Here that is
// the order of creation, so the list is that of least darts; a map that has lost darts gives another.
template <unsigned int i> static std::vector<std::uint32_t> first_darts(Map &map) {
  std::vector<std::uint32_t> list;
  for (auto it = map.one_dart_per_cell<i>().begin(), end = map.one_dart_per_cell<i>().end(); it != end; ++it)
    list.push_back(map.info(it));
  return list;
}

// The least dart of each cell, whatever the order of storage: one walk of each cell under one mark.
template <unsigned int i> static std::vector<std::uint32_t> least_darts(Map &map) {
  std::vector<std::uint32_t> list;
  const auto mark = map.get_new_mark();
  for (auto it = map.darts().begin(), end = map.darts().end(); it != end; ++it) {
    if (map.is_marked(it, mark))
      continue;
    std::uint32_t least = map.info(it);
    for (auto in = map.darts_of_cell_basic<i>(it, mark).begin(), out = map.darts_of_cell_basic<i>(it, mark).end();
         in != out; ++in) {
      map.mark(in, mark);
      if (map.info(in) < least)
        least = map.info(in);
    }
    list.push_back(least);
  }
  map.free_mark(mark);
  return list;
}

template <unsigned int i> static void lists(Map &map, const char *name, int runs) {
  std::vector<double> first, least;
  std::vector<std::uint32_t> list;
  for (int run = 0; run < runs; ++run) {
    double start = now();
    list = first_darts<i>(map);
    first.push_back(since(start));
    if (run == 0)
      print_hash(std::string("first_") + name, list);
    start = now();
    list = least_darts<i>(map);
    least.push_back(since(start));
    if (run == 0)
      print_hash(std::string("least_") + name, list);
  }
  print_line(std::string("first_") + name, first);
  print_line(std::string("least_") + name, least);
}

static const std::size_t rounds = 64;

// The least dart of the cell of d.
template <unsigned int i> static std::uint32_t least_dart(Map &map, Dart d) {
  std::uint32_t least = map.info(d);
  for (auto in = map.darts_of_cell<i>(d).begin(), out = map.darts_of_cell<i>(d).end(); in != out; ++in)
    if (map.info(in) < least)
      least = map.info(in);
  return least;
}

// One cell's least dart, and one cell's darts written down: a time for each call, over the probes.
template <unsigned int i> static void cells(Map &map, const std::vector<Dart> &probes, const char *name, int runs) {
  std::vector<double> ids, orbits;
  std::vector<std::uint32_t> found, darts;
  for (int run = 0; run < runs; ++run) {
    found.assign(probes.size(), 0);
    double start = now();
    for (std::size_t at = 0; at < rounds * probes.size(); ++at)
      found[at % probes.size()] = least_dart<i>(map, probes[at % probes.size()]);
    ids.push_back(since(start) / static_cast<double>(rounds * probes.size()));
    std::size_t written = 0;
    start = now();
    for (std::size_t at = 0; at < rounds * probes.size(); ++at) {
      const Dart d = probes[at % probes.size()];
      darts.clear();
      for (auto in = map.darts_of_cell<i>(d).begin(), out = map.darts_of_cell<i>(d).end(); in != out; ++in)
        darts.push_back(map.info(in));
      written += darts.size();
    }
    orbits.push_back(since(start) / static_cast<double>(rounds * probes.size()));
    if (run == 0) {
      print_hash(std::string("id_") + name, found);
      std::printf("hash orbit_%s %zu 0\n", name, written / rounds);
    }
  }
  print_line(std::string("id_") + name, ids);
  print_line(std::string("orbit_") + name, orbits);
}

// Asks for the least dart of the cell of every dart, so many times in a row, and returns what that took for a dart.
template <unsigned int i>
static double ask_all(Map &map, const std::vector<Dart> &by_number, int times, std::vector<std::uint32_t> &found) {
  found.assign(by_number.size() - 1, 0);
  const double start = now();
  for (std::size_t d = 1; d < by_number.size(); ++d)
    for (int time = 0; time < times; ++time) {
      found[d - 1] = least_dart<i>(map, by_number[d]);
      asm volatile("" ::: "memory"); // the compiler may not answer from what it read before
    }
  return since(start) / static_cast<double>(found.size());
}

// The least darts that the edges and vertices of all darts have, dart by dart. `again` is what asking for an edge a
// second time adds, when its darts were read just before.
static void names(Map &map, const std::vector<Dart> &by_number, int runs) {
  std::vector<double> edges, twice, again, vertices;
  std::vector<std::uint32_t> found;
  for (int run = 0; run < runs; ++run) {
    edges.push_back(ask_all<1>(map, by_number, 1, found));
    if (run == 0)
      print_hash("all_edges", found);
    twice.push_back(ask_all<1>(map, by_number, 2, found));
    if (run == 0)
      print_hash("twice_edges", found);
    again.push_back(twice.back() - edges.back());
    vertices.push_back(ask_all<0>(map, by_number, 1, found));
    if (run == 0)
      print_hash("all_vertices", found);
  }
  print_line("all_edges", edges);
  print_line("twice_edges", twice);
  print_line("again_edges", again);
  print_line("all_vertices", vertices);
}

// One closed face.
static void make_ring(Map &map, std::size_t size) {
  std::vector<Dart> darts(size);
  for (Dart &d : darts)
    d = map.create_dart();
  for (std::size_t at = 0; at < size; ++at)
    map.link_beta<1>(darts[at], darts[(at + 1) % size]);
}

// Numbers all darts from 1 on in the order of their making, and returns them by their numbers.
static std::vector<Dart> numbered(Map &map) {
  std::uint32_t number = 0;
  std::vector<Dart> by_number{map.null_dart_handle};
  for (auto it = map.darts().begin(); it != map.darts().end(); ++it) {
    map.info(it) = ++number;
    by_number.push_back(it);
  }
  return by_number;
}

typedef std::vector<std::pair<Dart, Dart>> Pairs;

// Pairs of darts across the inner faces. The numbers in a cube are those of its making, 1 to 24:
// 5 and 15 lie against each other in x, 24 and 17 in y, 9 and 3 in z.
static Pairs across_faces(const std::vector<Dart> &by_number, std::size_t size) {
  Pairs pairs;
  for (std::size_t z = 0; z < size; ++z)
    for (std::size_t y = 0; y < size; ++y)
      for (std::size_t x = 0; x < size; ++x) {
        const std::size_t at = (z * size + y) * size + x;
        auto dart = [&](std::size_t which, std::size_t local) { return by_number[24 * which + local]; };
        if (x + 1 < size)
          pairs.emplace_back(dart(at, 5), dart(at + 1, 15));
        if (y + 1 < size)
          pairs.emplace_back(dart(at, 24), dart(at + size, 17));
        if (z + 1 < size)
          pairs.emplace_back(dart(at, 9), dart(at + size * size, 3));
      }
  return pairs;
}

// Glues all pairs, again and again: what a sew, a sew with its test before it and an unsew take. Says whether every
// pair could be sewn.
static bool sews(Map &map, const Pairs &pairs, int runs) {
  std::vector<double> sewing, tested, unsewing;
  bool sewable = true;
  const double count = static_cast<double>(pairs.size());
  auto unsew = [&] {
    for (auto &pair : pairs)
      map.unsew<3>(pair.first);
  };
  for (int run = 0; run < runs; ++run) {
    double start = now();
    for (auto &pair : pairs)
      map.sew<3>(pair.first, pair.second);
    sewing.push_back(since(start) / count);
    start = now();
    unsew();
    unsewing.push_back(since(start) / count);
    start = now();
    for (auto &pair : pairs) {
      sewable = sewable && map.is_sewable<3>(pair.first, pair.second);
      map.sew<3>(pair.first, pair.second);
    }
    tested.push_back(since(start) / count);
    if (run + 1 < runs)
      unsew();
  }
  print_line("sew_3", sewing);
  print_line("tested_sew_3", tested);
  print_line("unsew_3", unsewing);
  return sewable;
}

static std::vector<std::uint32_t> rows_of(Map &map, const std::vector<Dart> &by_number) {
  std::vector<std::uint32_t> rows(4, 0);
  for (std::size_t d = 1; d < by_number.size(); ++d)
    for (unsigned int i = 0; i < 4; ++i)
      rows.push_back(map.is_free(by_number[d], i) ? 0 : map.info(map.beta(by_number[d], i)));
  return rows;
}

// The same probes as bench/src/grid.rs.
static std::vector<Dart> probes_of(const std::vector<Dart> &by_number, std::size_t size) {
  std::vector<Dart> probes;
  for (std::size_t at = 0; at < 16; ++at) {
    std::size_t which = at * size * size * size / 16;
    if (which > 0 && which % size + 1 == size) // one that has a cube to its right
      --which;
    const Dart probe = by_number[24 * which + 5];
    if (probes.empty() || probes.back() != probe) // a small grid has fewer
      probes.push_back(probe);
  }
  return probes;
}

// The map test and all lists; says whether it is a map.
static bool whole_map(Map &map, int runs) {
  std::vector<double> valid;
  for (int run = 0; run < runs; ++run) {
    const double start = now();
    if (!map.is_valid())
      return false;
    valid.push_back(since(start));
  }
  print_line("is_valid", valid);
  lists<0>(map, "vertices", runs);
  lists<1>(map, "edges", runs);
  lists<2>(map, "faces", runs);
  lists<3>(map, "volumes", runs);
  return true;
}

int main(int count, char **words) {
  if (count != 4)
    return 2;
  const std::string what = words[1];
  const std::size_t size = std::strtoul(words[2], nullptr, 10);
  const int runs = std::atoi(words[3]);

  Map map;
  if (what == "ring")
    make_ring(map, size);
  else
    for (std::size_t at = 0; at < size * size * size; ++at)
      map.make_combinatorial_hexahedron();
  const std::vector<Dart> by_number = numbered(map);
  const Pairs pairs = what == "ring" ? Pairs() : across_faces(by_number, size);
  if (what == "edges")
    for (auto &pair : pairs)
      map.sew<3>(pair.first, pair.second);
  else if (!pairs.empty() && !sews(map, pairs, runs))
    return 3;
  print_hash("rows", rows_of(map, by_number));

  if (what == "grid" || what == "ring")
    if (!whole_map(map, runs))
      return 4;
  if (what == "grid") {
    const std::vector<Dart> probes = probes_of(by_number, size);
    cells<0>(map, probes, "vertex", runs);
    cells<1>(map, probes, "edge", runs);
    cells<2>(map, probes, "face", runs);
    cells<3>(map, probes, "volume", runs);
  }
  if (what == "edges") {
    lists<1>(map, "edges", runs);
    cells<1>(map, probes_of(by_number, size), "edge", runs);
    names(map, by_number, runs);
  }
  return 0;
}
