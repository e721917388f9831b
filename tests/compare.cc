// Judges the library, through its C interface, by a search of another author: the shortest paths of Boost.Graph.
//
//   compare [SEED [FACTOR]]
//
// The graph and the reading are made from document 01 alone, and from what document 02 says of the weights, of the bit that a raise sets, of marked
// cells, of lists, of bands and of blocks. A vertex is a stage of a strip with the bits of the cells of the last m stages, all that the sum for a
// data bit needs of the past. An edge is a choice of levels for the two cells of a stage: neither below its old level, a marked one not above it, the
// data bit as it is wanted. Its weight is the cost of the two climbs. Boost gives the distance of every vertex to the end of the strip; a walk from
// the start along edges that lose no cost, the lowest levels first, is then the write that document 01 asks for, ties included. A list is judged as
// such writes, one after another; a write in a band as such a write of each of its values, of which one is taken: the cheapest, then the nearest,
// then the lower; a put into a block as such a write into each of its pages, with one of the page's number into the directory: the cheapest two, then
// the lowest number. The first three writes after an erase are also held to the bound that document 02 has for them, and the first four puts are
// never spent.
// Reads, erases, refusals and writes of what is held need no search: the papers say outright what they give. Pages too wide for the search are held
// against the library's own single writes. The last line has how many calls each of the three judged. In every call the levels are summed: document
// 01's ledger.
//
// At the first disagreement the whole case is printed and the exit status is 1. FACTOR is n, and multiplies the random cases; or 1/n, at least 1/100,
// and takes about so much of them: of the rounds, of the bytes that a page is tried with, of the shapes that a loop goes through. Every kind of case
// is still met. Seed and factor make the same calls on every machine: no two draws stand in one expression, unless C++ orders them.
// The heap takes 10 MB at most.

#include "segrunov.h"

#include <boost/graph/compressed_sparse_row_graph.hpp>
#include <boost/graph/dag_shortest_paths.hpp>
#include <boost/property_map/property_map.hpp>

#include <algorithm>
#include <array>
#include <cstddef>
#include <cstdint>
#include <cstdio>
#include <cstdlib>
#include <cstring>
#include <limits>
#include <random>
#include <set>
#include <string>
#include <tuple>
#include <utility>
#include <vector>

namespace {

using Bytes = std::vector<std::uint8_t>;
using Levels = std::vector<unsigned>;

// ---------------------------------------------------------------- document 01: shape, cells, codes, cost

constexpr std::uint32_t kMost = 64;  // of L, of S and of the datas of a list
constexpr unsigned kFull = 3;        // the highest level
using Weights = std::array<std::uint8_t, kFull>;
constexpr Weights kHouse = {16, 20, 28};

struct Code {
  std::uint32_t name;
  unsigned memory;
  unsigned g1;
  unsigned g2;
};

constexpr std::array<Code, 2> kCodes = {Code{3, 2, 07, 05}, Code{7, 6, 0171, 0133}};

struct Shape {
  std::uint32_t bytes;   // L
  std::uint32_t strips;  // S
};

std::size_t strip_length(Shape shape) { return std::size_t{6} * shape.bytes; }
std::size_t page_length(Shape shape) { return strip_length(shape) * shape.strips; }
std::size_t data_length(Shape shape) { return std::size_t{1} * shape.bytes * shape.strips; }
std::size_t map_length(Shape shape) { return 2 * data_length(shape); }
std::size_t strip_cells(Shape shape) { return std::size_t{16} * shape.bytes; }

unsigned bit_at(const Bytes& bytes, std::size_t k) { return (bytes[k / 8] >> (k % 8)) & 1U; }
void flip_bit(Bytes& bytes, std::size_t k) { bytes[k / 8] = static_cast<std::uint8_t>(bytes[k / 8] ^ (1U << (k % 8))); }

unsigned level_of(const Bytes& strip, std::size_t cell) {
  return bit_at(strip, 3 * cell) + bit_at(strip, 3 * cell + 1) + bit_at(strip, 3 * cell + 2);
}

// The bit of a strip that is bit number i mod 3 of a cell.
std::size_t bit_of_cell(std::size_t cell, std::size_t i) { return 3 * cell + i % 3; }

// The first zero of a cell that is not full, going round the three bits from number i mod 3 on.
std::size_t zero_from(const Bytes& strip, std::size_t cell, std::size_t i) {
  while (bit_at(strip, bit_of_cell(cell, i)) == 1) ++i;
  return bit_of_cell(cell, i);
}

// A raise starts by the cell's number in its strip (document 02, K7).
void raise_once(Bytes& strip, std::size_t cell) { flip_bit(strip, zero_from(strip, cell, cell)); }

// Whether the cell's ones are those that raises from level 0 set, as in a page that only the library has written since the last erase.
bool in_order(const Bytes& strip, std::size_t cell) {
  const unsigned first = bit_at(strip, bit_of_cell(cell, cell));
  const unsigned second = bit_at(strip, bit_of_cell(cell, cell + 1));
  const unsigned third = bit_at(strip, bit_of_cell(cell, cell + 2));
  return first >= second && second >= third;
}

Levels levels_of(const Bytes& strip) {
  Levels levels(strip.size() * 8 / 3);
  for (std::size_t cell = 0; cell < levels.size(); ++cell) levels[cell] = level_of(strip, cell);
  return levels;
}

std::uint32_t climb_cost(const Weights& weights, unsigned from, unsigned to) {
  std::uint32_t cost = 0;
  for (unsigned level = from; level < to; ++level) cost += weights[level];
  return cost;
}

// Digit i of a generator: the leftmost, digit 0, belongs to the present stage.
unsigned digit(const Code& code, unsigned generator, unsigned i) { return (generator >> (code.memory - i)) & 1U; }

// The sum for a data bit; bit i of a and of b belongs to the cells i stages ago.
unsigned data_sum(const Code& code, unsigned a, unsigned b) {
  unsigned sum = 0;
  for (unsigned i = 0; i <= code.memory; ++i) {
    sum += digit(code, code.g2, i) * ((a >> i) & 1U) + digit(code, code.g1, i) * ((b >> i) & 1U);
  }
  return sum % 2;
}

Bytes part(const Bytes& bytes, std::size_t number, std::size_t length) {
  const auto first = bytes.begin() + static_cast<std::ptrdiff_t>(number * length);
  return Bytes(first, first + static_cast<std::ptrdiff_t>(length));
}

Bytes complement(Bytes bytes) {
  for (std::uint8_t& byte : bytes) byte = static_cast<std::uint8_t>(~byte);
  return bytes;
}

void put_part(Bytes& bytes, std::size_t number, const Bytes& piece) {
  std::copy(piece.begin(), piece.end(), bytes.begin() + static_cast<std::ptrdiff_t>(number * piece.size()));
}

Bytes read_strip(const Code& code, const Bytes& strip) {
  const Levels levels = levels_of(strip);
  Bytes data(strip.size() / 6, 0);
  unsigned a = 0;
  unsigned b = 0;
  for (std::size_t t = 0; t < 8 * data.size(); ++t) {
    a = (a << 1) | (levels[2 * t] % 2);
    b = (b << 1) | (levels[2 * t + 1] % 2);
    if (data_sum(code, a, b) == 1) flip_bit(data, t);
  }
  return data;
}

Bytes read_page(const Code& code, Shape shape, const Bytes& page) {
  Bytes data(data_length(shape));
  for (std::size_t k = 0; k < shape.strips; ++k) put_part(data, k, read_strip(code, part(page, k, strip_length(shape))));
  return data;
}

// ---------------------------------------------------------------- document 02, K3: marked cells

// A map of the page with no cell marked.
Bytes no_marks(Shape shape) { return Bytes(map_length(shape), 0); }

// The highest level that each cell of a strip may take: its old one where it is marked. The bits of the map go strip by strip.
Levels highest_levels(Shape shape, const Bytes& map, std::size_t number, const Levels& old) {
  Levels highest(old.size(), kFull);
  for (std::size_t cell = 0; cell < old.size(); ++cell) {
    if (bit_at(map, number * strip_cells(shape) + cell) == 1) highest[cell] = old[cell];
  }
  return highest;
}

// What an erase leaves: the bits of the marked cells. A strip's cells fill its bytes, so that map bit n stands for bits 3n to 3n + 2 of the page.
Bytes emptied_page(const Bytes& page, const Bytes& map) {
  Bytes emptied(page.size(), 0);
  for (std::size_t k = 0; k < 8 * page.size(); ++k) {
    if (bit_at(map, k / 3) == 1 && bit_at(page, k) == 1) flip_bit(emptied, k);
  }
  return emptied;
}

// Whether every marked cell has the same three bits in both pages.
bool marked_stay(const Bytes& page, const Bytes& after, const Bytes& map) { return emptied_page(page, map) == emptied_page(after, map); }

constexpr std::array<unsigned, 16> kOnes = {0, 1, 1, 2, 1, 2, 2, 3, 1, 2, 2, 3, 2, 3, 3, 4};  // of half a byte

std::uint64_t sum_of_levels(const Bytes& page) {
  std::uint64_t sum = 0;
  for (const std::uint8_t byte : page) sum += kOnes[byte / 16] + kOnes[byte % 16];
  return sum;
}

// The ledger of documents 01 and 02: the sum of a page's levels is that of the page from which raises are counted, and the raises since.
bool ledger_holds(const Bytes& from, std::uint64_t raises, const Bytes& page) { return sum_of_levels(page) == sum_of_levels(from) + raises; }

// ---------------------------------------------------------------- document 02, K6: a value that need not be exact

constexpr Shape kBandShape = {2, 1};         // of its page
constexpr std::uint32_t kWidest = 8;         // the widest band
constexpr std::uint32_t kLastValue = 65535;  // nothing goes round there, nor at 0

// 'Low byte first.'
Bytes bytes_of_value(std::uint32_t value) { return Bytes{static_cast<std::uint8_t>(value % 256), static_cast<std::uint8_t>(value / 256)}; }
std::uint32_t value_of_bytes(const Bytes& data) { return data[0] + 256U * data[1]; }

std::uint32_t away(std::uint32_t value, std::uint32_t other) { return value < other ? other - value : value - other; }

// ---------------------------------------------------------------- document 02, K9: a block of pages

constexpr Shape kDirectory = {1, 1};  // a strip of the short code, before the pages
constexpr std::uint32_t kFewestPages = 2;
constexpr std::uint32_t kMostPages = 16;
constexpr unsigned kCertainPuts = 4;  // after an erase so many are never spent

std::size_t block_length(Shape shape, std::uint32_t pages) { return page_length(kDirectory) + pages * page_length(shape); }

std::uint32_t pages_of(Shape shape, const Bytes& block) {
  return static_cast<std::uint32_t>((block.size() - page_length(kDirectory)) / page_length(shape));
}

Bytes directory_of(const Bytes& block) { return part(block, 0, page_length(kDirectory)); }

Bytes page_of(Shape shape, const Bytes& block, std::size_t number) {
  const auto first = block.begin() + static_cast<std::ptrdiff_t>(page_length(kDirectory) + number * page_length(shape));
  return Bytes(first, first + static_cast<std::ptrdiff_t>(page_length(shape)));
}

// The block with another directory, and with another page of the number.
Bytes with_page(Shape shape, Bytes block, std::size_t number, const Bytes& directory, const Bytes& page) {
  put_part(block, 0, directory);
  std::copy(page.begin(), page.end(), block.begin() + static_cast<std::ptrdiff_t>(page_length(kDirectory) + number * page_length(shape)));
  return block;
}

// 'The directory's data is the number of the live page.'
std::uint32_t live_page(const Bytes& block) { return read_strip(kCodes[0], directory_of(block))[0]; }

Bytes bytes_of_number(std::size_t number) { return Bytes{static_cast<std::uint8_t>(number)}; }

// ---------------------------------------------------------------- document 02, K7: pages of an older release

// The page as a release before K7 would have left it: the same levels, the ones of each cell its lowest bits.
Bytes older_page(const Bytes& page) {
  Bytes older(page.size(), 0);
  const Levels levels = levels_of(page);
  for (std::size_t cell = 0; cell < levels.size(); ++cell) {
    for (unsigned i = 0; i < levels[cell]; ++i) flip_bit(older, bit_of_cell(cell, i));
  }
  return older;
}

// The page with its cells raised to the levels of another.
Bytes raised_page(Shape shape, const Bytes& page, const Bytes& other) {
  Bytes raised(page.size());
  for (std::size_t k = 0; k < shape.strips; ++k) {
    Bytes strip = part(page, k, strip_length(shape));
    const Levels levels = levels_of(part(other, k, strip_length(shape)));
    for (std::size_t cell = 0; cell < levels.size(); ++cell) {
      while (level_of(strip, cell) < levels[cell]) raise_once(strip, cell);
    }
    put_part(raised, k, strip);
  }
  return raised;
}

// ---------------------------------------------------------------- document 02, K8: the first writes after an erase

constexpr std::uint32_t kCertain = 3;  // so many are never spent
using Costs = std::array<std::uint32_t, kCertain>;

// 'The k-th of them costs at most 8*L*S times the greatest of the first k weights.'
Costs certain_bounds(Shape shape, const Weights& weights) {
  Costs bounds{};
  std::uint32_t greatest = 0;
  for (std::size_t k = 0; k < kCertain; ++k) {
    greatest = std::max<std::uint32_t>(greatest, weights[k]);
    bounds[k] = 8 * shape.bytes * shape.strips * greatest;
  }
  return bounds;
}

// ---------------------------------------------------------------- the search

// What follows a state, for every choice of the two cells' bits. A state holds the bits a, then b, of the last m stages, the newest worth 1.
class Trellis {
 public:
  struct Step {
    unsigned data_bit;
    unsigned next;
  };

  explicit Trellis(const Code& code) : states_(std::size_t{1} << (2 * code.memory)), steps_(4 * states_) {
    const unsigned mask = (1U << code.memory) - 1;
    for (unsigned choice = 0; choice < steps_.size(); ++choice) {
      const unsigned state = choice / 4;
      const unsigned a = ((state & mask) << 1) | ((choice / 2) % 2);
      const unsigned b = ((state >> code.memory) << 1) | (choice % 2);
      steps_[choice] = Step{data_sum(code, a, b), (a & mask) | ((b & mask) << code.memory)};
    }
  }

  std::size_t states() const { return states_; }
  const Step& step(unsigned state, unsigned x, unsigned y) const { return steps_[4 * state + 2 * (x % 2) + y % 2]; }

 private:
  std::size_t states_;
  std::vector<Step> steps_;
};

struct StripPath {
  bool found = false;
  std::uint32_t cost = 0;
  Levels levels;
  bool tie = false;  // another path costs as much
};

// The strip is searched in pieces, from its end on, each a graph of its own: the widest strip would need hundreds of megabytes at once. What a search
// fills it leaves to the next one.
class StripSearch {
 public:
  StripPath least(const Trellis& trellis, const Weights& weights, const Levels& old, const Levels& highest, const Bytes& data) {
    trellis_ = &trellis;
    data_ = data;
    stages_ = 8 * data.size();
    piece_stages_ = std::min(stages_, kPieceStates / trellis_->states());
    numbers_.resize((piece_stages_ + 1) * trellis_->states());
    ahead_.assign(trellis_->states(), 0);
    list_climbs(weights, old, highest);
    reach();
    for (std::size_t last = stages_; last > 0;) last = measure(last);
    return walk();
  }

 private:
  using Vertex = std::uint32_t;
  struct Weight {
    std::uint32_t cost;
  };
  using Graph = boost::compressed_sparse_row_graph<boost::directedS, boost::no_property, Weight, boost::no_property, Vertex, std::uint32_t>;

  // Levels that the two cells of a stage can take.
  struct Climb {
    unsigned x;
    unsigned y;
    std::uint32_t cost;
  };

  static constexpr Vertex kEnd = 0;  // joined to every state after the last stage of a piece
  static constexpr std::uint32_t kFar = std::numeric_limits<std::uint32_t>::max();
  static constexpr std::size_t kPieceStates = 32768;  // a piece has no more in its stages, reached or not
  static constexpr Vertex kPieceVertices = 10000;     // with so many it ends
  static constexpr unsigned kTie = 16;                // in a choice, beside 4 * x + y

  std::size_t place(std::size_t t, unsigned state) const { return t * trellis_->states() + state; }
  Vertex& number(std::size_t t, unsigned state) { return numbers_[place(piece_end_ - t, state)]; }

  // Calls visit(climb, next state) for the edges that leave a state, the lower levels first.
  template <class Visit>
  void for_each_edge(std::size_t t, unsigned state, Visit visit) const {
    const unsigned wanted = bit_at(data_, t);
    const Climb* const end = climbs_.data() + first_climbs_[t + 1];
    for (const Climb* climb = climbs_.data() + first_climbs_[t]; climb != end; ++climb) {
      const Trellis::Step& step = trellis_->step(state, climb->x, climb->y);
      if (step.data_bit == wanted) visit(*climb, step.next);
    }
  }

  template <class Visit>
  void for_each_reached(std::size_t t, Visit visit) const {
    const std::uint8_t* const begin = reached_.data() + place(t, 0);
    const std::uint8_t* const end = begin + trellis_->states();
    for (const std::uint8_t* at = begin; at != end; ++at) {
      const void* const found = std::memchr(at, 1, static_cast<std::size_t>(end - at));
      if (found == nullptr) return;
      at = static_cast<const std::uint8_t*>(found);
      visit(static_cast<unsigned>(at - begin));
    }
  }

  void list_climbs(const Weights& weights, const Levels& old, const Levels& highest) {
    climbs_.clear();
    first_climbs_.clear();
    for (std::size_t t = 0; t < stages_; ++t) {
      first_climbs_.push_back(climbs_.size());
      for (unsigned x = old[2 * t]; x <= highest[2 * t]; ++x) {
        for (unsigned y = old[2 * t + 1]; y <= highest[2 * t + 1]; ++y) {
          climbs_.push_back(Climb{x, y, climb_cost(weights, old[2 * t], x) + climb_cost(weights, old[2 * t + 1], y)});
        }
      }
    }
    first_climbs_.push_back(climbs_.size());
  }

  // From state 0 on, since before stage 0 every bit is 0: only the states that can be reached become vertices.
  void reach() {
    reached_.assign((stages_ + 1) * trellis_->states(), 0);
    reached_[0] = 1;
    for (std::size_t t = 0; t < stages_; ++t) {
      std::uint8_t* const following = reached_.data() + place(t + 1, 0);
      for_each_reached(t, [=](unsigned state) {
        for_each_edge(t, state, [=](const Climb&, unsigned next) { following[next] = 1; });
      });
    }
  }

  // An edge is turned round, so that one search from the end measures every vertex.
  void join(Vertex from, Vertex to, std::uint32_t cost) {
    edges_.emplace_back(to, from);
    weights_.push_back(Weight{cost});
  }

  // Measures the piece that ends before stage `last`, where ahead_ has what each state costs from there on, and gives back its first stage.
  std::size_t measure(std::size_t last) {
    piece_end_ = last;
    edges_.clear();
    weights_.clear();
    Vertex vertices = kEnd + 1;
    for_each_reached(last, [&](unsigned state) {
      number(last, state) = vertices++;
      if (ahead_[state] != kFar) join(number(last, state), kEnd, ahead_[state]);
    });
    std::size_t first = last;
    while (first > 0 && last - first < piece_stages_ && vertices < kPieceVertices) {
      --first;
      for_each_reached(first, [&](unsigned state) {
        number(first, state) = vertices++;
        for_each_edge(first, state, [&](const Climb& climb, unsigned next) { join(number(first, state), number(first + 1, next), climb.cost); });
      });
    }
    search(vertices);
    for_each_reached(first, [&](unsigned state) { ahead_[state] = distance_[number(first, state)]; });
    // the walk begins in the strip's first piece, and finds its distances here
    if (first > 0 && chosen_.size() < place(stages_, 0)) chosen_ = Bytes(place(stages_, 0));
    for (std::size_t t = first; first > 0 && t < last; ++t) {
      for_each_reached(t, [&](unsigned state) { chosen_[place(t, state)] = choice(t, state); });
    }
    return first;
  }

  void search(Vertex vertices) {
    const Graph graph(boost::edges_are_unsorted_multi_pass, edges_.begin(), edges_.end(), weights_.begin(), vertices);
    distance_.assign(vertices, kFar);
    const auto index = boost::get(boost::vertex_index, graph);
    const auto distance = boost::make_iterator_property_map(distance_.begin(), index);
    boost::dag_shortest_paths(graph, kEnd, boost::weight_map(boost::get(&Weight::cost, graph)).distance_map(distance).distance_inf(kFar));
  }

  // The lowest levels that lose no cost.
  std::uint8_t choice(std::size_t t, unsigned state) {
    const std::uint32_t here = distance_[number(t, state)];
    unsigned chosen = 0;
    unsigned tight = 0;
    for_each_edge(t, state, [&](const Climb& climb, unsigned next) {
      const std::uint32_t there = distance_[number(t + 1, next)];
      if (there == kFar || climb.cost + there != here) return;
      if (tight++ == 0) chosen = 4 * climb.x + climb.y;
    });
    return static_cast<std::uint8_t>(tight > 1 ? kTie + chosen : chosen);
  }

  // Equal levels lead to equal states, so the lowest levels that lose no cost at each stage are the lowest of the strip.
  StripPath walk() {
    StripPath path;
    path.cost = ahead_[0];
    path.found = path.cost != kFar;
    unsigned state = 0;
    for (std::size_t t = 0; path.found && t < stages_; ++t) {
      const unsigned chosen = t < piece_end_ ? choice(t, state) : chosen_[place(t, state)];
      path.levels.push_back(chosen / 4 % 4);
      path.levels.push_back(chosen % 4);
      path.tie = path.tie || chosen >= kTie;
      state = trellis_->step(state, chosen / 4, chosen).next;
    }
    return path;
  }

  const Trellis* trellis_ = nullptr;
  Bytes data_;
  std::size_t stages_ = 0;
  std::size_t piece_stages_ = 0;           // the most that a piece has
  std::size_t piece_end_ = 0;              // the stage behind the piece that was measured last
  std::vector<Climb> climbs_;              // stage by stage, the lower levels first
  std::vector<std::size_t> first_climbs_;  // of each stage
  Bytes reached_;                          // by stage and state, 1 where it is reached
  Bytes chosen_;                           // by stage and state, behind the first piece
  std::vector<Vertex> numbers_;            // of the states of a piece that are reached
  std::vector<std::uint32_t> ahead_;       // by state
  std::vector<std::pair<Vertex, Vertex>> edges_;
  std::vector<Weight> weights_;
  std::vector<std::uint32_t> distance_;
};

std::uint64_t answer_of(std::uint32_t number, std::uint32_t value) { return (std::uint64_t{number} << 32) + value; }

// Document 02, K2: 'the low 32 bits are the summed cost, also when spent; the number written is added times 2^40, a spent strip times 2^48'.
std::uint64_t list_answer_of(std::uint32_t number, std::uint32_t cost, std::uint32_t written, std::uint32_t strip) {
  return answer_of(number, cost) + (std::uint64_t{written} << 40) + (std::uint64_t{strip} << 48);
}

// By what a call is judged: by the search, by what documents 01 and 02 say outright, or by the library's own answer to another call.
enum Basis : unsigned { kBySearch, kByPapers, kByOwn, kBases };
constexpr std::array<const char*, kBases> kBasisName = {"by the search", "by the papers", "by another call"};

struct PageSearch {
  std::uint64_t answer = 0;
  Bytes page;
  std::uint64_t raises = 0;    // the steps that cells climb, by the levels found
  Basis basis = kByPapers;
  bool tie = false;
  bool out_of_order = false;   // a cell is raised whose ones are not those that the library alone would have set
  bool strip_decides = false;  // a raise that started by the cell's number in the page would set another bit
  bool late_spent = false;     // spent, though a strip before would have been changed
  bool marked_one = false;     // a marked cell below level 3 shows a one, though it may not be raised
};

PageSearch search_page(const Code& code, Shape shape, const Weights& weights, const Bytes& page, const Bytes& map, const Bytes& data) {
  static const std::array<Trellis, 2> trellises = {Trellis(kCodes[0]), Trellis(kCodes[1])};
  static StripSearch search;
  const Trellis& trellis = trellises[code.name == kCodes[0].name ? 0 : 1];
  PageSearch result;
  result.page = page;
  result.basis = kBySearch;
  std::uint32_t cost = 0;
  for (std::uint32_t k = 0; k < shape.strips; ++k) {
    Bytes strip = part(page, k, strip_length(shape));
    const Bytes strip_data = part(data, k, shape.bytes);
    const Levels old = levels_of(strip);
    const Levels highest = highest_levels(shape, map, k, old);
    const StripPath path = search.least(trellis, weights, old, highest, strip_data);
    if (!path.found) {
      PageSearch spent;
      spent.answer = answer_of(SEGRUNOV_SPENT, k);
      spent.page = page;
      spent.basis = kBySearch;
      spent.late_spent = cost > 0;
      return spent;
    }
    for (std::size_t cell = 0; cell < path.levels.size(); ++cell) {
      result.raises += path.levels[cell] - old[cell];
      result.marked_one = result.marked_one || (highest[cell] == 1 && old[cell] == 1);
      for (unsigned level = level_of(strip, cell); level < path.levels[cell]; ++level) {
        const std::size_t in_page = k * path.levels.size() + cell;
        result.out_of_order = result.out_of_order || !in_order(strip, cell);
        result.strip_decides = result.strip_decides || zero_from(strip, cell, in_page) != zero_from(strip, cell, cell);
        raise_once(strip, cell);
      }
    }
    put_part(result.page, k, strip);
    cost += path.cost;
    result.tie = result.tie || path.tie;
  }
  result.answer = answer_of(SEGRUNOV_DONE, cost);
  return result;
}

// A value that a band may store, and what a plain write of it gives.
struct Offer {
  std::uint32_t value;
  PageSearch write;
};

// One for each value of the widest band, in ascending order.
std::vector<Offer> search_band(const Code& code, const Bytes& page, std::uint32_t value) {
  std::vector<Offer> offers;
  for (std::uint32_t other = value - std::min(value, kWidest); other <= std::min(value + kWidest, kLastValue); ++other) {
    offers.push_back(Offer{other, search_page(code, kBandShape, kHouse, page, no_marks(kBandShape), bytes_of_value(other))});
  }
  return offers;
}

// 'It takes the cheapest page over all of these. Between values at the same cost it takes the nearest, then the lower.' A 7 is above every cost, so
// that the one taken is spent only where all of them are.
const Offer& taken(const std::vector<Offer>& offers, std::uint32_t value, std::uint32_t band) {
  const auto rank = [=](const Offer& offer) {
    const std::uint32_t distance = away(offer.value, value);
    return std::make_tuple(distance > band, offer.write.answer, distance, offer.value);
  };
  return *std::min_element(offers.begin(), offers.end(), [=](const Offer& a, const Offer& b) { return rank(a) < rank(b); });
}

PageSearch search_directory(const Bytes& directory, std::size_t number) {
  return search_page(kCodes[0], kDirectory, kHouse, directory, no_marks(kDirectory), bytes_of_number(number));
}

// A page that a put may take: what a plain write of the data there gives, and one of its number into the directory.
struct Candidate {
  PageSearch page;
  PageSearch directory;

  bool page_serves() const { return SEGRUNOV_NUMBER(page.answer) == SEGRUNOV_DONE; }
  bool directory_serves() const { return SEGRUNOV_NUMBER(directory.answer) == SEGRUNOV_DONE; }
  bool serves() const { return page_serves() && directory_serves(); }
  std::uint32_t cost() const { return SEGRUNOV_VALUE(page.answer) + SEGRUNOV_VALUE(directory.answer); }
};

// Every page of the block, in ascending order.
std::vector<Candidate> search_block(const Code& code, Shape shape, const Bytes& block, const Bytes& data) {
  std::vector<Candidate> candidates;
  for (std::uint32_t number = 0; number < pages_of(shape, block); ++number) {
    candidates.push_back(
        Candidate{search_page(code, shape, kHouse, page_of(shape, block, number), no_marks(shape), data),
                  search_directory(directory_of(block), number)});
  }
  return candidates;
}

// 'It chooses the page for which page cost plus directory cost is least, lowest number first.' Where none serves, so
// many as there are.
std::size_t chosen_page(const std::vector<Candidate>& candidates) {
  std::size_t chosen = candidates.size();
  for (std::size_t number = 0; number < candidates.size(); ++number) {
    if (!candidates[number].serves()) continue;
    if (chosen == candidates.size() || candidates[number].cost() < candidates[chosen].cost()) chosen = number;
  }
  return chosen;
}

// What a put gives; its page is the block. 'The whole block is then unchanged and the strip reported is 0.'
PageSearch put_into(Shape shape, const Bytes& block, const std::vector<Candidate>& candidates) {
  PageSearch put;
  put.basis = candidates.front().page.basis;
  put.page = block;
  put.answer = answer_of(SEGRUNOV_SPENT, 0);
  const std::size_t number = chosen_page(candidates);
  if (number == candidates.size()) return put;
  const Candidate& chosen = candidates[number];
  put.answer = answer_of(SEGRUNOV_DONE, chosen.cost());
  put.page = with_page(shape, block, number, chosen.directory.page, chosen.page.page);
  put.raises = chosen.page.raises + chosen.directory.raises;
  put.tie = chosen.page.tie || chosen.directory.tie;
  return put;
}

// ---------------------------------------------------------------- calls of the library

// The single calls without a map, those with one, the lists, the write in a band, and the calls for a block.
enum Function : unsigned {
  kRead, kPrice, kWrite, kPriceWeighted, kWriteWeighted, kErase, kPriceMapped, kWriteMapped, kEraseMapped, kList, kListMapped, kWriteBand, kBlockPut,
  kBlockGet, kBlockErase, kFunctions
};
constexpr unsigned kUnmapped = kPriceMapped;  // so many are before the first with a map
constexpr unsigned kSingle = kList;           // so many are before the lists
constexpr unsigned kExact = kWriteBand;       // so many are before the band
constexpr unsigned kOnePage = kBlockPut;      // so many are before the block
constexpr std::array<const char*, kFunctions> kFunctionName = {
    "read",         "price",      "write",             "price_weighted", "write_weighted", "erase",     "price_mapped", "write_mapped",
    "erase_mapped", "write_list", "write_list_mapped", "write_band",     "block_put",      "block_get", "block_erase"};

bool is_block(Function function) { return function >= kOnePage; }
bool is_band(Function function) { return function == kWriteBand; }
bool is_list(Function function) { return function >= kSingle && function < kExact; }
bool takes_map(Function function) { return function >= kUnmapped && function < kExact && function != kList; }
bool is_erase(Function function) { return function == kErase || function == kEraseMapped || function == kBlockErase; }
bool takes_weights(Function function) { return function >= kPriceWeighted && function < kExact && !is_erase(function); }
bool takes_data(Function function) { return !is_erase(function) && !is_band(function); }

struct Call {
  Function function;
  std::uint32_t code;
  std::uint32_t bytes;
  std::uint32_t strips;
  Weights weights;  // of a call that takes them
  Bytes page;       // or the block
  Bytes data;       // of a read and a get: what the buffer holds before
  std::int16_t tenths;
  Bytes map = {};           // of a call that takes one
  std::uint32_t count = 1;  // of a list
  std::uint32_t value = 0;  // of a write in a band, and how far from it the one stored may be
  std::uint32_t band = 0;
  std::uint32_t pages = 0;  // of a block
};

struct Outcome {
  std::uint64_t answer;
  Bytes page;
  Bytes data;
  std::uint64_t raises = 0;
  Basis basis = kByPapers;  // of what is expected
};

std::string hex(const Bytes& bytes) {
  static const char* const digits = "0123456789abcdef";
  std::string text;
  for (const unsigned byte : bytes) {
    text += digits[byte / 16];
    text += digits[byte % 16];
  }
  return text;
}

void print_outcome(const char* whose, const Outcome& outcome) {
  std::printf("%s number %lu value %lu written %lu spent strip %lu raises %lu levels %lu\n  page %s\n  data %s\n", whose,
              static_cast<unsigned long>(SEGRUNOV_NUMBER(outcome.answer)), static_cast<unsigned long>(SEGRUNOV_VALUE(outcome.answer)),
              static_cast<unsigned long>(SEGRUNOV_WRITTEN(outcome.answer)), static_cast<unsigned long>(SEGRUNOV_SPENT_STRIP(outcome.answer)),
              static_cast<unsigned long>(outcome.raises), static_cast<unsigned long>(sum_of_levels(outcome.page)), hex(outcome.page).c_str(),
              hex(outcome.data).c_str());
}

[[noreturn]] void disagree(const char* what, const Call& call, const Outcome& expected, const Outcome& got) {
  std::printf("compare: DISAGREEMENT: %s\n%s code %lu L %lu S %lu weights %u %u %u tenths %d page length %zu map length %zu data length %zu\n", what,
              kFunctionName[call.function], static_cast<unsigned long>(call.code), static_cast<unsigned long>(call.bytes),
              static_cast<unsigned long>(call.strips), call.weights[0], call.weights[1], call.weights[2], call.tenths, call.page.size(),
              call.map.size(), call.data.size());
  std::printf("count %lu value %lu band %lu pages %lu map %s\n", static_cast<unsigned long>(call.count), static_cast<unsigned long>(call.value),
              static_cast<unsigned long>(call.band), static_cast<unsigned long>(call.pages), hex(call.map).c_str());
  print_outcome("before", Outcome{0, call.page, call.data});
  print_outcome("expected", expected);
  print_outcome("got", got);
  std::exit(1);
}

[[noreturn]] void give_up(const char* what) {
  std::printf("compare: %s\n", what);
  std::exit(1);
}

// A copy of some bytes between guard bytes. The front guard's length differs from buffer to buffer, so that every alignment is met.
class Guarded {
 public:
  Guarded(const Bytes& inner, std::uint64_t shift)
      : front_(kGuard + static_cast<std::size_t>(shift % 8)), length_(inner.size()), all_(front_ + length_ + kGuard) {
    for (std::size_t i = 0; i < all_.size(); ++i) all_[i] = pattern(i);
    std::copy(inner.begin(), inner.end(), all_.begin() + static_cast<std::ptrdiff_t>(front_));
  }

  // With length 0 the interface also takes a null pointer.
  std::uint8_t* pointer() { return length_ == 0 && front_ % 2 == 0 ? nullptr : all_.data() + front_; }
  std::size_t length() const { return length_; }

  Bytes inner() const { return Bytes(first(), first() + static_cast<std::ptrdiff_t>(length_)); }
  bool holds(const Bytes& bytes) const { return bytes.size() == length_ && std::equal(bytes.begin(), bytes.end(), first()); }

  bool intact() const {
    for (std::size_t i = 0; i < all_.size(); ++i) {
      const bool guard = i < front_ || i >= front_ + length_;
      if (guard && all_[i] != pattern(i)) return false;
    }
    return true;
  }

 private:
  static constexpr std::size_t kGuard = 32;
  Bytes::const_iterator first() const { return all_.begin() + static_cast<std::ptrdiff_t>(front_); }
  static std::uint8_t pattern(std::size_t i) { return static_cast<std::uint8_t>(0xa5 ^ (i * 29)); }

  std::size_t front_;
  std::size_t length_;
  Bytes all_;
};

// ---------------------------------------------------------------- the judge

// The kinds of maps: how many cells are marked. With the last kind they are half of one strip's.
enum MapKind : unsigned { kNone, kFew, kHalf, kNearlyAll, kAll, kOneStrip, kMapKinds };
constexpr std::array<const char*, kMapKinds> kMapName = {"none", "few", "half", "nearly all", "all", "one strip"};

// The pages that lists start from.
enum ListStart : unsigned { kErased, kHalfFull, kNearSpent, kListStarts };
constexpr std::array<const char*, kListStarts> kStartName = {"erased", "half full", "nearly spent"};

// The datas of a list: any, each a few bits from what the page reads as, or each one that the page takes.
enum ListDatas : unsigned { kAnyDatas, kNearDatas, kFittingDatas, kListDatas };

// The datas of the first writes after an erase: any, the complement of what the page reads as, or dear for each strip.
enum CertainDatas : unsigned { kSomeDatas, kComplements, kDearDatas, kCertainDatas };

// The values that a page is tried with in a band: any, or near what it holds, what it takes, an end, a multiple of 256.
enum ValueKind : unsigned { kAnyValue, kNearHeld, kNearFitting, kNearFirst, kNearLast, kNearByte, kValueKinds };

// The datas of a run of puts: any, each a few bits from what the live page reads as, or its complement.
enum PutDatas : unsigned { kAnyPuts, kNearPuts, kComplementPuts, kPutDatas };

constexpr std::size_t kNumbers = 15;  // of refusals, from 0 to 14

// What was met, so that a run that judged nothing of a kind cannot pass.
struct Counts {
  std::array<std::uint64_t, kFunctions> calls{};
  std::array<std::uint64_t, kBases> judged{};  // calls by what they are judged by
  std::array<std::array<std::uint64_t, kNumbers>, kFunctions> refused{};  // by function and number
  std::array<std::uint64_t, 2> done{};                                    // writes by code, and so on
  std::array<std::uint64_t, 2> spent{};
  std::array<std::uint64_t, 2> ties{};
  std::array<std::uint64_t, 2> out_of_order{};
  std::array<std::uint64_t, 2> strip_decides{};
  std::array<std::uint64_t, 2> late_spent{};
  std::array<std::uint64_t, 2> last_spent{};
  std::array<std::uint64_t, 2> kept{};
  std::array<std::uint64_t, 2> decided{};       // the weights given lead to another page than the house's
  std::array<std::uint64_t, 2> older{};         // writes that raise cells of an older release's page, with other bits than the case has
  std::array<std::uint64_t, 2> older_strips{};  // of these, pages where some cells have another number mod 3 than in their strips
  std::array<std::uint64_t, 2> older_runs{};    // runs until spent beside an older release's page
  std::array<std::uint64_t, 2> plain_runs{};    // runs until spent without weights
  std::array<std::uint64_t, 2> mixed_runs{};    // with weights that change from write to write
  std::uint64_t several_grounds = 0;

  // Of the calls with a map.
  std::array<std::uint64_t, kMapKinds> maps{};      // writes by the kind of the map
  std::array<std::uint64_t, 2> mapped_done{};       // writes by code, and so on
  std::array<std::uint64_t, 2> mapped_spent{};
  std::array<std::uint64_t, 2> mapped_ties{};
  std::array<std::uint64_t, 2> mapped_late{};       // spent, though a strip before would have been changed
  std::array<std::uint64_t, 2> mapped_last{};       // spent in strip 63
  std::array<std::uint64_t, 2> mapped_kept{};       // writes of what is held
  std::array<std::uint64_t, 2> marked_one{};        // done with a marked cell that shows a one and could rise
  std::array<std::uint64_t, 2> marks_decide{};      // done, with another page than without marks
  std::array<std::uint64_t, 2> decide_strips{};     // of these, with several strips and L another number than S
  std::array<std::uint64_t, 2> decide_largest{};    // of these, with L and S both 64
  std::array<std::uint64_t, 2> marks_spend{};       // spent, and done without marks
  std::array<std::uint64_t, 2> erased_spent{};      // spent, though every cell is at level 0
  std::array<std::uint64_t, 2> all_marked_done{};   // with every cell marked
  std::array<std::uint64_t, 2> all_marked_spent{};
  std::array<std::uint64_t, 2> dearer{};            // more marks, and a higher cost
  std::array<std::uint64_t, 2> spent_by_more{};     // more marks, and spent
  std::array<std::uint64_t, 2> mapped_runs{};       // runs until spent under a map
  std::array<std::uint64_t, 2> runs_of_1{};         // of these, with steps of 1
  std::uint64_t erases_that_keep = 0;               // erases that empty some cells and leave bits of others
  std::array<std::array<std::array<std::uint64_t, kNumbers>, kNumbers>, kFunctions> pairs{};  // refused with two grounds: function, first and second

  // Of the lists that the search judged.
  std::array<std::uint64_t, kListStarts> list_starts{};   // by the page that they start from
  std::array<std::uint64_t, 2> lists_through{};           // without a map, by code: every data written
  std::array<std::uint64_t, 2> lists_stopped{};           // some, and then spent
  std::array<std::uint64_t, 2> lists_at_once{};           // none, spent for the first
  std::array<std::uint64_t, 2> mapped_lists_through{};    // with a map, the same
  std::array<std::uint64_t, 2> mapped_lists_stopped{};
  std::array<std::uint64_t, 2> mapped_lists_at_once{};
  std::array<std::uint64_t, 2> lists_later_fits{};        // with and without: stopped after some, though a later data fits
  std::array<std::uint64_t, 2> lists_later_strip{};       // stopped after some in another strip than 0
  std::array<std::uint64_t, 2> lists_differ{};            // several written that all differ, L another number than S and neither 1
  std::array<std::uint64_t, 2> lists_of_most{};           // of 64 datas, all written
  std::array<std::uint64_t, 2> lists_changed{};           // spent with a changed page

  // Of the lists of any shape, held against single writes alone.
  std::array<std::uint64_t, 2> any_through{};  // by code: every data written
  std::array<std::uint64_t, 2> any_stopped{};  // spent for one of them
  std::array<std::uint64_t, 2> dearest{};      // every cell of the largest page climbs every step at 255

  // Of the first three writes after an erase.
  std::array<std::uint64_t, 2> certain{};        // by code: the three and a list of them, judged by the search
  std::array<std::uint64_t, 2> certain_bytes{};  // writes of one byte, all datas in turn, held to the bounds alone
  std::uint64_t certain_wide = 0;                // the three and a list of them, held to the bounds alone

  // Of the writes in a band that the search judged.
  std::array<std::uint64_t, kWidest + 1> bands{};      // by the band
  std::array<std::uint64_t, 2> bands_done{};           // by code, and so on
  std::array<std::uint64_t, 2> bands_spent{};          // for every value
  std::array<std::uint64_t, 2> bands_plain{};          // of 0, and beside it the plain write
  std::array<std::uint64_t, 2> bands_instead{};        // done, and the plain write is spent
  std::array<std::uint64_t, 2> bands_cheaper{};        // cheaper than the plain write
  std::array<std::uint64_t, 2> bands_nearest{};        // another value farther away costs as much
  std::array<std::uint64_t, 2> bands_lower{};          // another value as far away costs as much
  std::array<std::uint64_t, 2> bands_by_path{};        // another page that reads as the value stored costs as much
  std::array<std::uint64_t, 2> bands_at_end{};         // the value stored is as far away as the widest band allows
  std::array<std::uint64_t, 2> bands_cut_at_first{};   // a value beyond 0 would be cheaper, were there one
  std::array<std::uint64_t, 2> bands_cut_at_last{};    // beyond 65,535
  std::array<std::uint64_t, 2> bands_over_byte{};      // the value stored has another high byte than the one given
  std::array<std::uint64_t, 2> bands_wider_cheaper{};  // cheaper than in the next narrower band
  std::array<std::uint64_t, 2> bands_wider_done{};     // done, and spent in the next narrower band
  std::array<std::uint64_t, 2> bands_runs{};           // runs until spent

  // Of those that need no search.
  std::array<std::uint64_t, 2> bands_held{};        // the band has what the page holds
  std::array<std::uint64_t, 2> bands_full_spent{};  // the page is full, and the band does not have what it holds

  // Of the puts that the search judged.
  std::array<std::uint64_t, kMostPages + 1> puts{};   // by the pages of the block
  std::array<std::uint64_t, 2> puts_kept{};           // by code, and so on: into the live page
  std::array<std::uint64_t, 2> puts_changed{};        // into another one
  std::array<std::uint64_t, 2> puts_from_none{};      // done, and the directory named no page before
  std::array<std::uint64_t, 2> puts_lowest{};         // a page with a higher number costs as much
  std::array<std::uint64_t, 2> puts_by_path{};        // another page or directory that reads the same costs as much
  std::array<std::uint64_t, 2> puts_by_directory{};   // another page alone would cost less, and its number more
  std::array<std::uint64_t, 2> puts_live_spent{};     // done, though the live page is spent
  std::array<std::uint64_t, 2> puts_no_number{};      // done, and another page takes the data whose number the directory does not
  std::array<std::uint64_t, 2> puts_pages_spent{};    // spent: no page takes the data, though the directory takes a number
  std::array<std::uint64_t, 2> puts_numbers_spent{};  // spent: pages take the data, and the directory the number of none of them
  std::array<std::uint64_t, 2> puts_not_square{};     // done, with several strips and L another number than S
  std::array<std::uint64_t, 2> puts_again{};          // into a page that was spent for an earlier data of the run
  std::array<std::uint64_t, 2> puts_back{};           // into a page that was live before another was
  std::array<std::uint64_t, 2> puts_runs{};           // runs until spent
  std::array<std::uint64_t, 2> puts_certain{};        // the first four after an erase, with dear datas
  std::array<std::uint64_t, 2> puts_largest{};        // not searched, with L and S both 64
  std::array<std::uint64_t, 2> puts_any{};            // not searched, of any shape

  // Of the calls for a block that need no search.
  std::array<std::uint64_t, 2> puts_held{};         // of what the live page holds
  std::array<std::uint64_t, 2> gets_last{};         // the last page is live
  std::array<std::uint64_t, 2> gets_just_beyond{};  // the number after its own is named
};

// How much is done: the random cases so many times, or one part in so many.
struct Factor {
  unsigned times;
  unsigned part;
};

// How a price and a write are asked for: without weights, which means the house's, or with these.
struct Weighing {
  bool given;
  Weights weights;
};
constexpr Weighing kPlain = {false, kHouse};

class Judge {
 public:
  Judge(std::uint64_t seed, Factor factor) : random_(seed), factor_(factor) {}

  const Counts& counts() const { return counts_; }
  std::uint64_t calls() const {
    std::uint64_t sum = 0;
    for (const std::uint64_t n : counts_.calls) sum += n;
    return sum;
  }

  // The standard leaves its distributions to each library; a remainder gives the same cases everywhere.
  std::uint64_t below(std::uint64_t limit) { return random_() % limit; }
  std::size_t place_below(std::size_t limit) { return static_cast<std::size_t>(below(limit)); }
  bool chance(std::uint64_t of, std::uint64_t in) { return below(in) < of; }

  // Of so many rounds of random cases those to be done, at least as many as it takes to meet every kind of case.
  unsigned rounds(unsigned whole, unsigned least) const { return std::max(least, whole * factor_.times / factor_.part); }
  unsigned times() const { return factor_.times; }
  bool whole() const { return factor_.part == 1; }

  // Of the cases that a loop goes through by number, whether this one is to be done; the first always is.
  bool due(unsigned number) const { return number % factor_.part == 0; }

  // Calls visit(byte) for every byte, or with a part of them for bytes that are so far apart.
  template <class Visit>
  void for_each_byte(Visit visit) {
    for (auto byte = static_cast<unsigned>(below(factor_.part)); byte < 256; byte += factor_.part) visit(static_cast<std::uint8_t>(byte));
  }

  // Calls the library and holds answer, ledger, page, data and guards against the expected outcome.
  void judge(const Call& call, const Outcome& expected) {
    Guarded page(call.page, calls());
    Guarded data(call.data, calls() / 8);
    Guarded map(call.map, calls() / 64);
    ++counts_.calls[call.function];
    ++counts_.judged[expected.basis];
    const std::uint64_t answer = perform(call, page, map, data);
    const Bytes left = page.inner();
    const auto hold = [&](bool right, const char* what) {
      if (!right) disagree(what, call, expected, Outcome{answer, left, data.inner(), levels_between(call.page, left)});
    };
    const std::uint32_t number = SEGRUNOV_NUMBER(answer);
    const bool right_lengths = number == SEGRUNOV_DONE || number == SEGRUNOV_SPENT;
    hold(page.intact() && data.intact() && map.intact(), "bytes beside a buffer changed");
    hold(map.holds(call.map), "the map changed");
    hold(answer == expected.answer, "answer");
    hold(!takes_map(call.function) || !right_lengths || marked_stay(call.page, left, call.map), "bits of a marked cell changed");
    // after an erase raises are counted from what it leaves
    hold(ledger_holds(is_erase(call.function) ? expected.page : call.page, expected.raises, left), "the sum of levels");
    hold(left == expected.page, "page");
    hold(data.holds(expected.data), "data");
    if (number != SEGRUNOV_DONE) ++counts_.refused[call.function][number];
  }

  void judge_refusal(const Call& call, std::uint32_t number, std::uint32_t value = 0) {
    judge(call, Outcome{answer_of(number, value), call.page, call.data});
  }

  void judge_read(const Code& code, Shape shape, const Bytes& page, const Bytes& data) {
    judge_read_into(random_bytes(data.size()), code, shape, page, data);
  }

  // Judges a price and a write of the data, and the read after it. Gives back what the search found. Without weights
  // the calls that take them are judged too, with the house's. Beside each stands the same page of an older release.
  PageSearch judge_write(const Code& code, Shape shape, const Weighing& weighing, const Bytes& page,
                         const Bytes& data) {
    const PageSearch least = search_page(code, shape, weighing.weights, page, no_marks(shape), data);
    price_and_write(code, shape, weighing, page, data, least);
    if (!weighing.given) price_and_write(code, shape, Weighing{true, kHouse}, page, data, least);
    if (weighing.given) judge_weights(code, shape, weighing.weights, page, data, least);
    judge_older(code, shape, weighing, page, data, least);
    count_write(code, least);
    if (SEGRUNOV_NUMBER(least.answer) == SEGRUNOV_DONE) {
      if (read_page(code, shape, least.page) != data) give_up("the search itself is wrong: its page does not read as the data");
      judge_read(code, shape, least.page, data);
    }
    return least;
  }

  // What the page reads as costs nothing and changes nothing. No search: this is said outright by document 01.
  void judge_kept(const Code& code, Shape shape, const Bytes& page) {
    const Bytes data = read_page(code, shape, page);
    PageSearch least;
    least.page = page;
    judge_read(code, shape, page, data);
    for (const Weighing& weighing : {kPlain, random_weighted()}) price_and_write(code, shape, weighing, page, data, least);
    ++counts_.kept[code_index(code)];
  }

  // 1 and 255 often among them.
  Weights random_weights() {
    Weights weights{};
    for (std::uint8_t& weight : weights) weight = static_cast<std::uint8_t>(chance(1, 3) ? 1 : chance(1, 2) ? 255 : 1 + below(255));
    return weights;
  }

  Weighing random_weighted() { return Weighing{true, random_weights()}; }

  Bytes random_bytes(std::size_t length) {
    Bytes bytes(length);
    for (std::uint8_t& byte : bytes) byte = static_cast<std::uint8_t>(below(256));
    return bytes;
  }

  // Every bit is one with the given chance.
  Bytes random_bits(std::size_t length, std::uint64_t of, std::uint64_t in) {
    Bytes bytes(length, 0);
    for (std::size_t k = 0; k < 8 * length; ++k) {
      if (chance(of, in)) flip_bit(bytes, k);
    }
    return bytes;
  }

  // Every cell is full with the given chance, else random.
  Bytes random_full_cells(std::size_t length, std::uint64_t of, std::uint64_t in) {
    Bytes bytes = random_bytes(length);
    for (std::size_t cell = 0; cell < 8 * length / 3; ++cell) {
      if (!chance(of, in)) continue;
      while (level_of(bytes, cell) < kFull) raise_once(bytes, cell);
    }
    return bytes;
  }

  static constexpr std::uint64_t kStripKinds = 8;
  Bytes strip_of_kind(std::uint64_t kind, std::size_t length) {
    switch (kind) {
      case 0: return Bytes(length, 0);
      case 1: return random_bytes(length);
      case 2: return random_bits(length, 1, 16);
      case 3: return random_bits(length, 7, 8);
      case 4: return random_full_cells(length, 3, 4);
      case 5: return random_full_cells(length, 1, 2);
      case 6: return random_bits(length, 1, 3);
      default: return Bytes(length, 0xff);
    }
  }

  Bytes random_page(Shape shape) {
    Bytes page(page_length(shape));
    const std::uint64_t common = below(kStripKinds);
    const bool mixed = chance(1, 2);
    for (std::size_t k = 0; k < shape.strips; ++k) put_part(page, k, strip_of_kind(mixed ? below(kStripKinds) : common, strip_length(shape)));
    return page;
  }

  // Data that some page above this one reads as, so that a write of it is done, however full the page.
  Bytes fitting_data(const Code& code, Shape shape, Bytes page) {
    const std::size_t cells_in_strip = 16 * std::size_t{shape.bytes};
    for (std::size_t k = 0; k < shape.strips; ++k) {
      Bytes strip = part(page, k, strip_length(shape));
      for (std::size_t cell = 0; cell < cells_in_strip; ++cell) {
        if (chance(1, 3) && level_of(strip, cell) < kFull) raise_once(strip, cell);
      }
      put_part(page, k, strip);
    }
    return read_page(code, shape, page);
  }

  Bytes near_data(const Code& code, Shape shape, const Bytes& page) {
    Bytes data = read_page(code, shape, page);
    for (std::uint64_t flips = 1 + below(3); flips > 0; --flips) flip_bit(data, place_below(8 * data.size()));
    return data;
  }

  // Fitting data with one bit changed in the last strip, so that a spent strip comes late.
  Bytes late_data(const Code& code, Shape shape, const Bytes& page) {
    Bytes data = fitting_data(code, shape, page);
    flip_bit(data, 8 * data.size() - 1 - place_below(8 * std::size_t{shape.bytes}));
    return data;
  }

  Bytes random_data(const Code& code, Shape shape, const Bytes& page) {
    switch (below(5)) {
      case 0: return random_bytes(data_length(shape));
      case 1: return near_data(code, shape, page);
      case 2: return late_data(code, shape, page);
      default: return fitting_data(code, shape, page);
    }
  }

  // Two pages from erased, the same data into both until spent; after each write the second is put as an older release would have left it. Answers
  // and levels are alike, and the first page has the bits that its levels say. There is no search here, so that any shape is quick enough.
  void judge_run_beside_older(const Code& code, Shape shape, const Weighing& weighing) {
    const Function write = weighing.given ? kWriteWeighted : kWrite;
    const Bytes erased(page_length(shape), 0);
    Bytes page = erased;
    Bytes older = erased;
    std::uint64_t answer = 0;
    while (SEGRUNOV_NUMBER(answer) == SEGRUNOV_DONE) {
      const Bytes data = random_bytes(data_length(shape));
      const Call call = {write, code.name, shape.bytes, shape.strips, weighing.weights, page, data, 0};
      const Outcome got = made(call);
      const Outcome in_turn = {got.answer, raised_page(shape, erased, got.page), data};
      if (got.page != in_turn.page) disagree("bits of a page that only the library has written", call, in_turn, got);
      const Bytes raised = raised_page(shape, older, got.page);
      const Outcome alike = {got.answer, raised, data, got.raises, kByOwn};
      judge(Call{write, code.name, shape.bytes, shape.strips, weighing.weights, older, data, 0}, alike);
      page = got.page;
      older = older_page(raised);
      answer = got.answer;
    }
    counts_.older_runs[code_index(code)] += SEGRUNOV_NUMBER(answer) == SEGRUNOV_SPENT && older != page ? 1 : 0;
  }

  // Judges a price and a write of the data with a map, the read after it, and the answers with fewer and with more marks.
  PageSearch judge_mapped(const Code& code, Shape shape, const Weights& weights, const Bytes& page, const Bytes& map, const Bytes& data) {
    const PageSearch least = search_page(code, shape, weights, page, map, data);
    price_and_write_mapped(code, shape, weights, page, map, data, least);
    if (SEGRUNOV_NUMBER(least.answer) == SEGRUNOV_DONE) {
      const bool right = read_page(code, shape, least.page) == data && marked_stay(page, least.page, map);
      if (!right) give_up("the search itself is wrong: its page does not read as the data, or a marked cell is changed");
      judge_read(code, shape, least.page, data);
    }
    judge_other_marks(code, shape, weights, page, map, data);
    count_mapped(code, page, least);
    return least;
  }

  // What the page reads as costs nothing and changes nothing, whatever is marked. No search: a marked cell is not asked to move.
  void judge_mapped_kept(const Code& code, Shape shape, const Bytes& page, const Bytes& map) {
    PageSearch least;
    least.page = page;
    price_and_write_mapped(code, shape, random_weights(), page, map, read_page(code, shape, page), least);
    ++counts_.mapped_kept[code_index(code)];
  }

  // With every cell marked a page takes what it holds and nothing else: spent in the first strip that differs. No search either.
  void judge_all_marked(const Code& code, Shape shape, const Bytes& page, const Bytes& data) {
    const Bytes held = read_page(code, shape, page);
    PageSearch least;
    least.page = page;
    for (std::uint32_t k = shape.strips; k-- > 0;) {
      if (part(held, k, shape.bytes) != part(data, k, shape.bytes)) least.answer = answer_of(SEGRUNOV_SPENT, k);
    }
    price_and_write_mapped(code, shape, random_weights(), page, Bytes(map_length(shape), 0xff), data, least);
    ++(held == data ? counts_.all_marked_done : counts_.all_marked_spent)[code_index(code)];
  }

  // An erase with a map at an allowed temperature. Gives back the page after it.
  Bytes judge_mapped_erase(Shape shape, const Bytes& page, const Bytes& map, std::int16_t tenths) {
    const Bytes emptied = emptied_page(page, map);
    judge(Call{kEraseMapped, 0, shape.bytes, shape.strips, kHouse, page, Bytes(), tenths, map}, Outcome{0, emptied, Bytes()});
    counts_.erases_that_keep += emptied != page && sum_of_levels(emptied) > 0 ? 1 : 0;
    return emptied;
  }

  // Marks with the given chance on every cell that is not marked yet.
  Bytes more_marks(const Bytes& map, std::uint64_t of, std::uint64_t in) {
    const Bytes added = random_bits(map.size(), of, in);
    Bytes more = map;
    for (std::size_t i = 0; i < more.size(); ++i) more[i] = static_cast<std::uint8_t>(more[i] | added[i]);
    return more;
  }

  Bytes map_of_kind(MapKind kind, Shape shape) {
    const Bytes none = no_marks(shape);
    switch (kind) {
      case kNone: return none;
      case kFew: return more_marks(none, 1, 16);
      case kHalf: return more_marks(none, 1, 2);
      case kNearlyAll: return more_marks(none, 7, 8);
      case kAll: return Bytes(none.size(), 0xff);
      default: {
        Bytes map = none;
        const std::size_t strip = place_below(shape.strips);
        put_part(map, strip, random_bytes(2 * std::size_t{shape.bytes}));
        return map;
      }
    }
  }

  void count_map(MapKind kind) { ++counts_.maps[kind]; }

  // Data that some page above this one reads as with the marked cells kept, so that a write of it is done. One cell in so many is higher there.
  Bytes mapped_fitting_data(const Code& code, Shape shape, Bytes page, const Bytes& map, std::uint64_t in = 3) {
    for (std::size_t n = 0; n < 8 * map.size(); ++n) {
      if (chance(1, in) && bit_at(map, n) == 0 && level_of(page, n) < kFull) raise_once(page, n);
    }
    return read_page(code, shape, page);
  }

  // Such data, at times with a bit or two changed; or any.
  Bytes mapped_data(const Code& code, Shape shape, const Bytes& page, const Bytes& map) {
    if (chance(1, 8)) return random_bytes(data_length(shape));
    Bytes data = mapped_fitting_data(code, shape, page, map);
    const std::uint64_t flips = chance(1, 3) ? 1 + below(2) : 0;
    // in the last strip as a rule, so that a spent strip comes late
    const std::size_t among = 8 * (chance(1, 4) ? data.size() : std::size_t{shape.bytes});
    for (std::uint64_t i = 0; i < flips; ++i) flip_bit(data, 8 * data.size() - 1 - place_below(among));
    return data;
  }

  // Of a run, after each write: the raises are those since the erase that left the first page.
  static void hold_ledger(const Bytes& erased, std::uint64_t raises, const Bytes& page) {
    if (!ledger_holds(erased, raises, page)) give_up("the sum of levels is not that of the raises since the erase");
  }

  void count_run(const Code& code, bool mixed) { ++(mixed ? counts_.mixed_runs : counts_.plain_runs)[code_index(code)]; }

  void count_mapped_run(const Code& code, bool steps_of_1) {
    ++counts_.mapped_runs[code_index(code)];
    counts_.runs_of_1[code_index(code)] += steps_of_1 ? 1 : 0;
  }

  // Judges a list, and each of its writes as a single call, by the search: without a map where none is given, and then also with a map of zeros. Each
  // data is drawn for the page as it is by then; those behind the one that is spent would fit, so that a list that went on would write them.
  void judge_list(const Code& code, Shape shape, const Weights& weights, const Bytes& page, const Bytes* map, std::uint32_t count, ListDatas datas) {
    const Bytes marks = map == nullptr ? no_marks(shape) : *map;
    const Function single = map == nullptr ? kWriteWeighted : kWriteMapped;
    Call list = {kListMapped, code.name, shape.bytes, shape.strips, weights, page, Bytes(), 0, marks, count};
    Outcome after = {0, page, Bytes(), 0, kBySearch};
    std::uint32_t cost = 0;
    std::uint32_t number = 0;
    std::vector<Bytes> all;
    for (bool spent = false; all.size() < count;) {
      const Bytes data = listed_data(spent ? kFittingDatas : datas, code, shape, after.page, marks);
      all.push_back(data);
      list.data.insert(list.data.end(), data.begin(), data.end());
      if (spent) continue;
      const PageSearch least = search_page(code, shape, weights, after.page, marks, data);
      judge(Call{single, code.name, shape.bytes, shape.strips, weights, after.page, data, 0, marks}, written(least, data));
      after.page = least.page;
      after.raises += least.raises;
      spent = SEGRUNOV_NUMBER(least.answer) == SEGRUNOV_SPENT;
      if (spent) {
        after.answer = list_answer_of(SEGRUNOV_SPENT, cost, number, SEGRUNOV_VALUE(least.answer));
      } else {
        cost += SEGRUNOV_VALUE(least.answer);
        after.answer = list_answer_of(SEGRUNOV_DONE, cost, ++number, 0);
      }
    }
    after.data = list.data;
    judge(list, after);
    if (map == nullptr) {
      list.function = kList;
      judge(list, after);
    }
    count_list(code, shape, list, after, all);
  }

  void count_list_start(ListStart start) { ++counts_.list_starts[start]; }

  // A list against the library's own single writes. There is no search here, so that any shape is quick enough.
  void judge_list_beside_singles(const Code& code, Shape shape, const Weights& weights, const Bytes& page, const Bytes& map, std::uint32_t count) {
    Call list = {kListMapped, code.name, shape.bytes, shape.strips, weights, page, Bytes(), 0, map, count};
    Outcome after = {0, page, Bytes(), 0, kByOwn};
    std::uint32_t cost = 0;
    Bytes data = read_page(code, shape, page);
    for (std::uint32_t j = 0; j < count; ++j) {
      if (chance(1, 12)) data = random_bytes(data.size());
      for (std::uint64_t flips = 1 + below(3); flips > 0; --flips) flip_bit(data, place_below(8 * data.size()));
      list.data.insert(list.data.end(), data.begin(), data.end());
      if (SEGRUNOV_NUMBER(after.answer) == SEGRUNOV_SPENT) continue;
      const Outcome one = made(Call{kWriteMapped, code.name, shape.bytes, shape.strips, weights, after.page, data, 0, map});
      const std::uint32_t value = SEGRUNOV_VALUE(one.answer);
      if (SEGRUNOV_NUMBER(one.answer) == SEGRUNOV_SPENT) {
        after.answer = list_answer_of(SEGRUNOV_SPENT, cost, j, value);
      } else {
        cost += value;
        after.answer = list_answer_of(SEGRUNOV_DONE, cost, j + 1, 0);
      }
      after.page = one.page;
      after.raises += one.raises;
    }
    after.data = list.data;
    judge(list, after);
    if (map == no_marks(shape)) {
      list.function = kList;
      judge(list, after);
    }
    ++(SEGRUNOV_NUMBER(after.answer) == SEGRUNOV_DONE ? counts_.any_through : counts_.any_stopped)[code_index(code)];
  }

  // The dearest list that there is. With each of 63 datas one cell in 21 of the largest page rises: so far apart, no other raises lead to the data as
  // cheaply, but for a strip's last stage, whose two cells serve alike. So every cell climbs every step, at 255; the last data costs nothing.
  void judge_dearest_list(const Code& code) {
    constexpr std::size_t kStride = 21;
    const Shape shape = {kMost, kMost};
    const std::size_t cells = strip_cells(shape) * shape.strips;
    Call list = {kList, code.name, shape.bytes, shape.strips, {255, 255, 255}, Bytes(page_length(shape), 0), Bytes(), 0, no_marks(shape), kMost};
    Bytes wanted = list.page;
    for (std::size_t j = 0; j < kMost; ++j) {
      for (std::size_t cell = j % kStride; j < 3 * kStride && cell < cells; cell += kStride) flip_bit(wanted, 3 * cell + j / kStride);
      const Bytes data = read_page(code, shape, wanted);
      list.data.insert(list.data.end(), data.begin(), data.end());
    }
    const std::size_t raises = 3 * cells;
    const auto cost = static_cast<std::uint32_t>(255 * raises);
    for (const Function function : {kList, kListMapped}) {
      list.function = function;
      judge(list, Outcome{list_answer_of(SEGRUNOV_DONE, cost, kMost, 0), Bytes(list.page.size(), 0xff), list.data, raises});
    }
    ++counts_.dearest[code_index(code)];
  }

  // Three writes after an erase, and a list of them: done, each within its bound. Without the search wide pages are
  // quick enough too. Gives back the greatest share of its bound that one of the writes costs, in percent.
  std::uint64_t judge_certain(const Code& code, Shape shape, const Weighing& weighing, CertainDatas datas,
                              bool searched) {
    const Weights& weights = weighing.weights;
    const Call erase = {kErase, 0, shape.bytes, shape.strips, kHouse, random_page(shape), Bytes(), 200};
    Bytes page(page_length(shape), 0);
    judge(erase, Outcome{0, page, Bytes()});
    Call list = {kList, code.name, shape.bytes, shape.strips, weights, page, Bytes(), 0, no_marks(shape), kCertain};
    Outcome after = {0, Bytes(), Bytes(), 0, searched ? kBySearch : kByOwn};
    std::uint32_t cost = 0;
    std::uint64_t share = 0;
    for (const std::uint32_t bound : certain_bounds(shape, weights)) {
      const Bytes data = certain_data(datas, code, shape, weights, page);
      const PageSearch least = searched ? judge_write(code, shape, weighing, page, data)
                                        : own_write(code, shape, weighing, page, data);
      const Call write = {kWriteWeighted, code.name, shape.bytes, shape.strips, weights, page, data, 0};
      hold_certain(write, bound, written(least, data));
      list.data.insert(list.data.end(), data.begin(), data.end());
      cost += SEGRUNOV_VALUE(least.answer);
      share = std::max(share, std::uint64_t{100} * SEGRUNOV_VALUE(least.answer) / bound);
      page = least.page;
      after.raises += least.raises;
    }
    after.answer = list_answer_of(SEGRUNOV_DONE, cost, kCertain, 0);
    after.page = page;
    after.data = list.data;
    for (const Function function : {kList, kListMapped}) {
      list.function = function;
      judge(list, after);
    }
    ++(searched ? counts_.certain[code_index(code)] : counts_.certain_wide);
    return share;
  }

  // The most that each of the three costs with the house's weights and one strip of one byte, over all datas: each from
  // every page that the writes before can leave. They are millions, so that there is no search here either. With a part
  // of the cases the first two are all tried all the same: they make the pages of the third.
  Costs judge_certain_bytes(const Code& code) {
    const Shape shape = {1, 1};
    const Costs bounds = certain_bounds(shape, kHouse);
    Costs most{};
    std::set<Bytes> pages = {Bytes(page_length(shape), 0)};
    for (std::size_t k = 0; k < kCertain; ++k) {
      std::set<Bytes> left;
      for (const Bytes& page : pages) {
        const auto write_byte = [&](std::uint8_t byte) {
          const Call write = {kWrite, code.name, shape.bytes, shape.strips, kHouse, page, Bytes{byte}, 0};
          const Outcome got = made(write);
          hold_certain(write, bounds[k], got);
          most[k] = std::max(most[k], SEGRUNOV_VALUE(got.answer));
          if (k + 1 < kCertain) left.insert(got.page);
          ++counts_.certain_bytes[code_index(code)];
        };
        if (k + 1 == kCertain) {
          for_each_byte(write_byte);
        } else {
          for (unsigned byte = 0; byte < 256; ++byte) write_byte(static_cast<std::uint8_t>(byte));
        }
      }
      pages.swap(left);
    }
    return most;
  }

  // Judges a plain write of the value, a write in each band from 0 to the widest, and the reads after them. A wider band never costs more, and is
  // never spent where a narrower one is not. Gives back what the search found for one of the bands.
  PageSearch judge_bands(const Code& code, const Bytes& page, std::uint32_t value, std::uint32_t asked) {
    const std::vector<Offer> offers = search_band(code, page, value);
    const Offer& exact = taken(offers, value, 0);
    const Bytes data = bytes_of_value(value);
    judge(Call{kWrite, code.name, kBandShape.bytes, kBandShape.strips, kHouse, page, data, 0}, written(exact.write, data));
    std::uint64_t narrower = exact.write.answer;
    for (std::uint32_t band = 0; band <= kWidest; ++band) {
      const Offer& offer = taken(offers, value, band);
      judge(band_call(code, page, value, band), written(offer.write, Bytes()));
      if (offer.write.answer > narrower) give_up("the search itself is wrong: a wider band costs more, or is spent where a narrower one is not");
      if (SEGRUNOV_NUMBER(offer.write.answer) == SEGRUNOV_DONE) {
        const bool right = value_of_bytes(read_page(code, kBandShape, offer.write.page)) == offer.value && away(offer.value, value) <= band;
        if (!right) give_up("the search itself is wrong: its page does not read as a value of the band");
        judge_read(code, kBandShape, offer.write.page, bytes_of_value(offer.value));
      }
      count_band(code, page, value, band, offers, narrower);
      narrower = offer.write.answer;
    }
    ++counts_.bands_plain[code_index(code)];
    return taken(offers, value, asked).write;
  }

  // What the page holds costs nothing, and no other value does; a full page takes no other. No search: the papers say so outright.
  void judge_band_of_held(const Code& code, const Bytes& page, std::uint32_t value) {
    const std::uint32_t held = value_of_bytes(read_page(code, kBandShape, page));
    const bool full = page == Bytes(page.size(), 0xff);
    for (std::uint32_t band = 0; band <= kWidest; ++band) {
      const bool reached = away(held, value) <= band;
      if (reached) {
        judge(band_call(code, page, value, band), Outcome{0, page, Bytes()});
      } else if (full) {
        judge_refusal(band_call(code, page, value, band), SEGRUNOV_SPENT);
      }
      counts_.bands_held[code_index(code)] += reached ? 1 : 0;
      counts_.bands_full_spent[code_index(code)] += !reached && full ? 1 : 0;
    }
  }

  // At most 10 away from what its kind says.
  std::uint32_t value_of_kind(ValueKind kind, const Code& code, const Bytes& page) {
    std::uint32_t middle = 0;
    switch (kind) {
      case kAnyValue: middle = static_cast<std::uint32_t>(below(kLastValue + 1)); break;
      case kNearHeld: middle = value_of_bytes(read_page(code, kBandShape, page)); break;
      case kNearFitting: middle = value_of_bytes(fitting_data(code, kBandShape, page)); break;
      case kNearFirst: break;
      case kNearLast: middle = kLastValue; break;
      default: middle = static_cast<std::uint32_t>(256 * (1 + below(255))); break;
    }
    return shifted(middle, 10);
  }

  // A value at most so far from another one, within the ends.
  std::uint32_t shifted(std::uint32_t value, std::uint32_t most) {
    const auto up = static_cast<std::uint32_t>(below(2 * most + 1));
    return std::min(std::max(value + up, most) - most, kLastValue);
  }

  void count_band_run(const Code& code) { ++counts_.bands_runs[code_index(code)]; }

  // What a put gave, and what the search found for every page.
  struct Put {
    PageSearch after;
    std::vector<Candidate> candidates;
    std::size_t number;  // of the page; where the block is spent, so many as there are
  };

  // Judges a put of the data, and the get after it.
  Put judge_put(const Code& code, Shape shape, const Bytes& block, const Bytes& data) {
    Put put = {PageSearch(), search_block(code, shape, block, data), 0};
    put.after = put_into(shape, block, put.candidates);
    put.number = chosen_page(put.candidates);
    judge(block_call(kBlockPut, code, shape, block, data), written(put.after, data));
    if (SEGRUNOV_NUMBER(put.after.answer) == SEGRUNOV_DONE) {
      const bool right = live_page(put.after.page) == put.number && read_page(code, shape, page_of(shape, put.after.page, put.number)) == data;
      if (!right) give_up("the search itself is wrong: its block does not name the page, or this does not read as the data");
    }
    judge_get(code, shape, put.after.page);
    count_put(code, shape, block, put);
    return put;
  }

  // No search: the papers say outright what it gives.
  void judge_get(const Code& code, Shape shape, const Bytes& block) {
    const std::uint32_t live = live_page(block);
    const std::uint32_t pages = pages_of(shape, block);
    const Call call = block_call(kBlockGet, code, shape, block, random_bytes(data_length(shape)));
    counts_.gets_last[code_index(code)] += live + 1 == pages ? 1 : 0;
    counts_.gets_just_beyond[code_index(code)] += live == pages ? 1 : 0;
    if (live >= pages) return judge_refusal(call, SEGRUNOV_NO_PAGE);
    judge(call, Outcome{0, block, read_page(code, shape, page_of(shape, block, live))});
  }

  // What the live page holds costs nothing there, and with every other page the directory costs something. No search
  // either.
  void judge_put_of_held(const Code& code, Shape shape, const Bytes& block) {
    const std::uint32_t live = live_page(block);
    if (live >= pages_of(shape, block)) return;
    const Bytes data = read_page(code, shape, page_of(shape, block, live));
    judge(block_call(kBlockPut, code, shape, block, data), Outcome{0, block, data});
    ++counts_.puts_held[code_index(code)];
  }

  // A put against the library's own single writes into each page and into the directory, so that any shape is quick
  // enough.
  Bytes judge_put_beside_singles(const Code& code, Shape shape, const Bytes& block, const Bytes& data) {
    std::vector<Candidate> candidates;
    for (std::uint32_t number = 0; number < pages_of(shape, block); ++number) {
      candidates.push_back(Candidate{own_single(code, shape, page_of(shape, block, number), data),
                                     own_single(kCodes[0], kDirectory, directory_of(block), bytes_of_number(number))});
    }
    const PageSearch after = put_into(shape, block, candidates);
    judge(block_call(kBlockPut, code, shape, block, data), written(after, data));
    judge_get(code, shape, after.page);
    const bool largest = shape.bytes == kMost && shape.strips == kMost;
    if (SEGRUNOV_NUMBER(after.answer) == SEGRUNOV_DONE) ++(largest ? counts_.puts_largest : counts_.puts_any)[code_index(code)];
    return after.page;
  }

  void judge_block_erase(Shape shape, const Bytes& block, std::int16_t tenths) {
    judge(block_call(kBlockErase, kCodes[0], shape, block, Bytes(), tenths), Outcome{0, Bytes(block.size(), 0), Bytes()});
  }

  void judge_block_erase_refused(Shape shape, const Bytes& block, std::int16_t tenths) {
    judge_refusal(block_call(kBlockErase, kCodes[0], shape, block, Bytes(), tenths), SEGRUNOV_TEMPERATURE);
  }

  // The first puts after an erase, each with the dearest of eight datas by the library's own answer. None is spent.
  void judge_certain_puts(const Code& code, Shape shape, std::uint32_t pages) {
    Bytes block(block_length(shape, pages), 0);
    for (unsigned k = 0; k < kCertainPuts; ++k) {
      Call dearest = block_call(kBlockPut, code, shape, block, random_bytes(data_length(shape)));
      for (unsigned tried = 1; tried < 8; ++tried) {
        Call other = dearest;
        other.data = random_bytes(dearest.data.size());
        if (made(other).answer > made(dearest).answer) dearest = other;
      }
      const PageSearch after = judge_put(code, shape, block, dearest.data).after;
      if (SEGRUNOV_NUMBER(after.answer) != SEGRUNOV_DONE) {
        disagree("a certain put is spent", dearest, Outcome{0, block, Bytes()}, written(after, Bytes()));
      }
      block = after.page;
    }
    ++counts_.puts_certain[code_index(code)];
  }

  // A strip of every kind; every other time with the number of a page written into it.
  Bytes random_directory(std::uint32_t pages) {
    const Bytes strip = strip_of_kind(below(kStripKinds), page_length(kDirectory));
    return chance(1, 2) ? strip : search_directory(strip, place_below(pages)).page;
  }

  // None of the pages alike, about half of them, or all.
  Bytes random_block(Shape shape, std::uint32_t pages) {
    Bytes block = random_directory(pages);
    const Bytes common = random_page(shape);
    const std::uint64_t alike = below(3);
    for (std::uint32_t number = 0; number < pages; ++number) {
      const Bytes page = chance(alike, 2) ? common : random_page(shape);
      block.insert(block.end(), page.begin(), page.end());
    }
    return block;
  }

  // For one of the pages; or what it holds.
  Bytes random_data_for_block(const Code& code, Shape shape, const Bytes& block) {
    const Bytes page = page_of(shape, block, place_below(pages_of(shape, block)));
    return chance(1, 8) ? read_page(code, shape, page) : random_data(code, shape, page);
  }

  Bytes put_data(PutDatas datas, const Code& code, Shape shape, const Bytes& block) {
    const Bytes live = page_of(shape, block, live_page(block));
    switch (datas) {
      case kAnyPuts: return random_bytes(data_length(shape));
      case kNearPuts: return near_data(code, shape, live);
      default: return complement(read_page(code, shape, live));
    }
  }

  void count_put_run(const Code& code) { ++counts_.puts_runs[code_index(code)]; }
  void count_put_again(const Code& code) { ++counts_.puts_again[code_index(code)]; }
  void count_put_back(const Code& code) { ++counts_.puts_back[code_index(code)]; }

  void count_several_grounds() { ++counts_.several_grounds; }
  void count_pair(Function function, std::uint32_t first, std::uint32_t second) { ++counts_.pairs[function][first][second]; }

 private:
  static std::size_t code_index(const Code& code) { return code.name == kCodes[0].name ? 0 : 1; }

  static std::uint64_t levels_between(const Bytes& page, const Bytes& after) { return sum_of_levels(after) - sum_of_levels(page); }

  static std::uint64_t perform(const Call& call, Guarded& page, Guarded& map, Guarded& data) {
    switch (call.function) {
      case kRead: return segrunov_read(call.code, call.bytes, call.strips, page.pointer(), page.length(), data.pointer(), data.length());
      case kPrice: return segrunov_price(call.code, call.bytes, call.strips, page.pointer(), page.length(), data.pointer(), data.length());
      case kWrite: return segrunov_write(call.code, call.bytes, call.strips, page.pointer(), page.length(), data.pointer(), data.length());
      case kPriceWeighted:
        return segrunov_price_weighted(call.code, call.bytes, call.strips, call.weights[0], call.weights[1], call.weights[2], page.pointer(),
                                       page.length(), data.pointer(), data.length());
      case kWriteWeighted:
        return segrunov_write_weighted(call.code, call.bytes, call.strips, call.weights[0], call.weights[1], call.weights[2], page.pointer(),
                                       page.length(), data.pointer(), data.length());
      case kErase: return segrunov_erase(call.bytes, call.strips, page.pointer(), page.length(), call.tenths);
      case kPriceMapped:
        return segrunov_price_mapped(call.code, call.bytes, call.strips, call.weights[0], call.weights[1], call.weights[2], page.pointer(),
                                     page.length(), map.pointer(), map.length(), data.pointer(), data.length());
      case kWriteMapped:
        return segrunov_write_mapped(call.code, call.bytes, call.strips, call.weights[0], call.weights[1], call.weights[2], page.pointer(),
                                     page.length(), map.pointer(), map.length(), data.pointer(), data.length());
      case kEraseMapped:
        return segrunov_erase_mapped(call.bytes, call.strips, page.pointer(), page.length(), map.pointer(), map.length(), call.tenths);
      case kList:
        return segrunov_write_list(call.code, call.bytes, call.strips, call.weights[0], call.weights[1], call.weights[2], call.count, page.pointer(),
                                   page.length(), data.pointer(), data.length());
      case kWriteBand: return segrunov_write_band(call.code, page.pointer(), page.length(), static_cast<std::uint16_t>(call.value), call.band);
      case kBlockPut:
        return segrunov_block_put(call.code, call.bytes, call.strips, call.pages, page.pointer(), page.length(), data.pointer(), data.length());
      case kBlockGet:
        return segrunov_block_get(call.code, call.bytes, call.strips, call.pages, page.pointer(), page.length(), data.pointer(), data.length());
      case kBlockErase: return segrunov_block_erase(call.bytes, call.strips, call.pages, page.pointer(), page.length(), call.tenths);
      default:
        return segrunov_write_list_mapped(call.code, call.bytes, call.strips, call.weights[0], call.weights[1], call.weights[2], call.count,
                                          page.pointer(), page.length(), map.pointer(), map.length(), data.pointer(), data.length());
    }
  }

  // What the library makes of a call, unjudged. The raises are then those that its page shows.
  static Outcome made(const Call& call) {
    Guarded page(call.page, 0);
    Guarded data(call.data, 0);
    Guarded map(call.map, 0);
    const std::uint64_t answer = perform(call, page, map, data);
    const Bytes left = page.inner();
    return Outcome{answer, left, data.inner(), levels_between(call.page, left), kByOwn};
  }

  static Call band_call(const Code& code, const Bytes& page, std::uint32_t value, std::uint32_t band) {
    return Call{kWriteBand, code.name, kBandShape.bytes, kBandShape.strips, kHouse, page, Bytes(), 0, Bytes(), 1, value, band};
  }

  static Call block_call(Function function, const Code& code, Shape shape, const Bytes& block, const Bytes& data, std::int16_t tenths = 0) {
    Call call = {function, code.name, shape.bytes, shape.strips, kHouse, block, data, tenths};
    call.pages = pages_of(shape, block);
    return call;
  }

  void judge_read_into(const Bytes& buffer, const Code& code, Shape shape, const Bytes& page, const Bytes& data) {
    judge(Call{kRead, code.name, shape.bytes, shape.strips, kHouse, page, buffer, 0}, Outcome{0, page, data});
  }

  // The same page of an older release has the same levels in other bits: it reads as the same data, and a write gives the same answer and leaves the
  // same levels. Nothing is drawn here, so that a seed makes the same cases with and without it: every bit of the reads' buffers is wrong instead.
  void judge_older(const Code& code, Shape shape, const Weighing& weighing, const Bytes& page, const Bytes& data, const PageSearch& least) {
    const Bytes older = older_page(page);
    if (older == page) return;
    PageSearch beside = least;
    beside.page = raised_page(shape, older, least.page);
    const Bytes held = read_page(code, shape, page);
    judge_read_into(complement(held), code, shape, older, held);
    price_and_write(code, shape, weighing, older, data, beside);
    if (SEGRUNOV_NUMBER(least.answer) == SEGRUNOV_DONE) judge_read_into(complement(data), code, shape, beside.page, data);
    const bool raises = beside.page != older;
    counts_.older[code_index(code)] += raises ? 1 : 0;
    counts_.older_strips[code_index(code)] += raises && shape.strips > 1 && shape.bytes % 3 != 0 ? 1 : 0;
  }

  static Outcome priced(const PageSearch& least, const Bytes& page, const Bytes& data) { return Outcome{least.answer, page, data, 0, least.basis}; }
  static Outcome written(const PageSearch& least, const Bytes& data) { return Outcome{least.answer, least.page, data, least.raises, least.basis}; }

  void price_and_write(const Code& code, Shape shape, const Weighing& weighing, const Bytes& page, const Bytes& data, const PageSearch& least) {
    const Function price = weighing.given ? kPriceWeighted : kPrice;
    const Function write = weighing.given ? kWriteWeighted : kWrite;
    judge(Call{price, code.name, shape.bytes, shape.strips, weighing.weights, page, data, 0}, priced(least, page, data));
    judge(Call{write, code.name, shape.bytes, shape.strips, weighing.weights, page, data, 0}, written(least, data));
    // With a map of zeros it is the same call.
    if (weighing.given) price_and_write_mapped(code, shape, weighing.weights, page, no_marks(shape), data, least);
  }

  void price_and_write_mapped(const Code& code, Shape shape, const Weights& weights, const Bytes& page, const Bytes& map, const Bytes& data,
                              const PageSearch& least) {
    judge(Call{kPriceMapped, code.name, shape.bytes, shape.strips, weights, page, data, 0, map}, priced(least, page, data));
    judge(Call{kWriteMapped, code.name, shape.bytes, shape.strips, weights, page, data, 0, map}, written(least, data));
  }

  // From no marks over fewer and more to all: no write becomes cheaper, and no spent page takes the data. The strip of a spent page is no later one.
  void judge_other_marks(const Code& code, Shape shape, const Weights& weights, const Bytes& page, const Bytes& map, const Bytes& data) {
    const std::size_t i = code_index(code);
    const Bytes fewer = complement(more_marks(complement(map), 1, 2));
    const Call none = {kWriteMapped, code.name, shape.bytes, shape.strips, weights, page, data, 0, no_marks(shape)};
    const Outcome unmarked = made(none);
    Outcome before = unmarked;
    for (const Bytes& marks : {fewer, map, more_marks(map, 1, 4), Bytes(map.size(), 0xff)}) {
      Call call = none;
      call.map = marks;
      const Outcome got = made(call);
      const bool was_spent = SEGRUNOV_NUMBER(before.answer) == SEGRUNOV_SPENT;
      const bool is_spent = SEGRUNOV_NUMBER(got.answer) == SEGRUNOV_SPENT;
      const bool cheaper = was_spent == is_spent && (is_spent ? got.answer > before.answer : got.answer < before.answer);
      if (cheaper || (was_spent && !is_spent)) disagree("more marks make a write cheaper, or a spent page take the data", call, before, got);
      counts_.dearer[i] += !is_spent && got.answer > before.answer ? 1 : 0;
      counts_.spent_by_more[i] += is_spent && !was_spent ? 1 : 0;
      if (marks == map) count_marks(i, shape, unmarked, got);
      before = got;
    }
  }

  void count_marks(std::size_t i, Shape shape, const Outcome& unmarked, const Outcome& got) {
    const bool unmarked_done = SEGRUNOV_NUMBER(unmarked.answer) == SEGRUNOV_DONE;
    const bool done = SEGRUNOV_NUMBER(got.answer) == SEGRUNOV_DONE;
    const bool decide = done && got.page != unmarked.page;
    counts_.marks_decide[i] += decide ? 1 : 0;
    counts_.decide_strips[i] += decide && shape.strips > 1 && shape.strips != shape.bytes ? 1 : 0;
    counts_.decide_largest[i] += decide && shape.strips == kMost && shape.bytes == kMost ? 1 : 0;
    counts_.marks_spend[i] += unmarked_done && !done ? 1 : 0;
  }

  Bytes listed_data(ListDatas datas, const Code& code, Shape shape, const Bytes& page, const Bytes& map) {
    switch (datas) {
      case kAnyDatas: return random_bytes(data_length(shape));
      case kNearDatas: return near_data(code, shape, page);
      default: return mapped_fitting_data(code, shape, page, map, 16);
    }
  }

  // Each strip's data the dearest of eight, by the library's own price.
  Bytes dear_data(const Code& code, Shape shape, const Weights& weights, const Bytes& page) {
    Bytes data(data_length(shape));
    for (std::size_t k = 0; k < shape.strips; ++k) {
      Call price = {kPriceWeighted, code.name, shape.bytes, 1, weights, part(page, k, strip_length(shape)), Bytes(), 0};
      std::uint64_t most = 0;
      for (unsigned tried = 0; tried < 8; ++tried) {
        price.data = random_bytes(shape.bytes);
        const std::uint64_t answer = made(price).answer;
        if (answer < most) continue;
        most = answer;
        put_part(data, k, price.data);
      }
    }
    return data;
  }

  Bytes certain_data(CertainDatas datas, const Code& code, Shape shape, const Weights& weights, const Bytes& page) {
    switch (datas) {
      case kSomeDatas: return random_bytes(data_length(shape));
      case kComplements: return complement(read_page(code, shape, page));
      default: return dear_data(code, shape, weights, page);
    }
  }

  // What the library itself makes of a write.
  static PageSearch own_of(const Call& write) {
    const Outcome got = made(write);
    PageSearch own;
    own.answer = got.answer;
    own.page = got.page;
    own.raises = got.raises;
    own.basis = got.basis;
    return own;
  }

  static PageSearch own_single(const Code& code, Shape shape, const Bytes& page, const Bytes& data) {
    return own_of(Call{kWrite, code.name, shape.bytes, shape.strips, kHouse, page, data, 0});
  }

  // The library's own write, and the calls that are to agree with it.
  PageSearch own_write(const Code& code, Shape shape, const Weighing& weighing, const Bytes& page, const Bytes& data) {
    const PageSearch own = own_of(Call{kWriteWeighted, code.name, shape.bytes, shape.strips, weighing.weights, page, data, 0});
    price_and_write(code, shape, weighing, page, data, own);
    if (SEGRUNOV_NUMBER(own.answer) == SEGRUNOV_DONE) judge_read(code, shape, own.page, data);
    return own;
  }

  // Where a write that is certain is spent, or dearer than its bound, the bound is shown as the value expected.
  static void hold_certain(const Call& write, std::uint32_t bound, const Outcome& got) {
    if (SEGRUNOV_NUMBER(got.answer) == SEGRUNOV_DONE && SEGRUNOV_VALUE(got.answer) <= bound) return;
    disagree("a certain write is spent or above its bound", write, Outcome{bound, write.page, write.data}, got);
  }

  void count_list(const Code& code, Shape shape, const Call& list, const Outcome& after, std::vector<Bytes> all) {
    const std::size_t i = code_index(code);
    const std::uint32_t written = SEGRUNOV_WRITTEN(after.answer);
    const bool spent = SEGRUNOV_NUMBER(after.answer) == SEGRUNOV_SPENT;
    const bool stopped = spent && written > 0;
    if (list.function == kList) {
      ++(stopped ? counts_.lists_stopped : spent ? counts_.lists_at_once : counts_.lists_through)[i];
    } else {
      ++(stopped ? counts_.mapped_lists_stopped : spent ? counts_.mapped_lists_at_once : counts_.mapped_lists_through)[i];
    }
    counts_.lists_later_fits[i] += stopped && written + 1 < list.count ? 1 : 0;
    counts_.lists_later_strip[i] += stopped && SEGRUNOV_SPENT_STRIP(after.answer) > 0 ? 1 : 0;
    counts_.lists_of_most[i] += written == kMost ? 1 : 0;
    counts_.lists_changed[i] += spent && after.page != list.page ? 1 : 0;
    std::sort(all.begin(), all.end());
    const bool differ = std::adjacent_find(all.begin(), all.end()) == all.end();
    counts_.lists_differ[i] += differ && written > 1 && shape.bytes != shape.strips && shape.bytes > 1 && shape.strips > 1 ? 1 : 0;
  }

  void count_mapped(const Code& code, const Bytes& page, const PageSearch& least) {
    const std::size_t i = code_index(code);
    const bool done = SEGRUNOV_NUMBER(least.answer) == SEGRUNOV_DONE;
    ++(done ? counts_.mapped_done : counts_.mapped_spent)[i];
    counts_.mapped_ties[i] += least.tie ? 1 : 0;
    counts_.mapped_late[i] += least.late_spent ? 1 : 0;
    counts_.mapped_last[i] += least.answer == answer_of(SEGRUNOV_SPENT, kMost - 1) ? 1 : 0;
    counts_.marked_one[i] += least.marked_one ? 1 : 0;
    counts_.erased_spent[i] += !done && sum_of_levels(page) == 0 ? 1 : 0;
  }

  // Whether a value that the end at 0, or that at 65,535, keeps out of the band would be cheaper, did values go round there. By the library's own
  // price: it is only counted.
  static bool cheaper_beyond(const Code& code, const Bytes& page, std::uint32_t value, std::uint32_t band, std::uint64_t answer, bool first) {
    constexpr std::uint32_t kValues = kLastValue + 1;
    for (std::uint32_t distance = 1; distance <= band; ++distance) {
      if (first ? distance <= value : value + distance <= kLastValue) continue;
      const std::uint32_t beyond = (first ? value + kValues - distance : value + distance) % kValues;
      const Call price = {kPrice, code.name, kBandShape.bytes, kBandShape.strips, kHouse, page, bytes_of_value(beyond), 0};
      if (made(price).answer < answer) return true;
    }
    return false;
  }

  void count_band(const Code& code, const Bytes& page, std::uint32_t value, std::uint32_t band, const std::vector<Offer>& offers,
                  std::uint64_t narrower) {
    const std::size_t i = code_index(code);
    const Offer& offer = taken(offers, value, band);
    const std::uint64_t exact = taken(offers, value, 0).write.answer;
    const std::uint64_t answer = offer.write.answer;
    const std::uint32_t distance = away(offer.value, value);
    const bool done = SEGRUNOV_NUMBER(answer) == SEGRUNOV_DONE;
    ++counts_.bands[band];
    ++(done ? counts_.bands_done : counts_.bands_spent)[i];
    counts_.bands_cut_at_first[i] += cheaper_beyond(code, page, value, band, answer, true) ? 1 : 0;
    counts_.bands_cut_at_last[i] += cheaper_beyond(code, page, value, band, answer, false) ? 1 : 0;
    if (!done) return;
    bool farther = false;
    bool as_far = false;
    for (const Offer& other : offers) {
      const std::uint32_t there = away(other.value, value);
      const bool equal = other.value != offer.value && there <= band && other.write.answer == answer;
      farther = farther || (equal && there > distance);
      as_far = as_far || (equal && there == distance);
    }
    const bool exact_spent = SEGRUNOV_NUMBER(exact) == SEGRUNOV_SPENT;
    const bool narrower_spent = SEGRUNOV_NUMBER(narrower) == SEGRUNOV_SPENT;
    counts_.bands_instead[i] += exact_spent ? 1 : 0;
    counts_.bands_cheaper[i] += !exact_spent && answer < exact ? 1 : 0;
    counts_.bands_nearest[i] += farther ? 1 : 0;
    counts_.bands_lower[i] += as_far ? 1 : 0;
    counts_.bands_by_path[i] += offer.write.tie ? 1 : 0;
    counts_.bands_at_end[i] += distance == kWidest ? 1 : 0;
    counts_.bands_over_byte[i] += offer.value / 256 != value / 256 ? 1 : 0;
    counts_.bands_wider_cheaper[i] += !narrower_spent && answer < narrower ? 1 : 0;
    counts_.bands_wider_done[i] += narrower_spent ? 1 : 0;
  }

  void count_put(const Code& code, Shape shape, const Bytes& block, const Put& put) {
    const std::size_t i = code_index(code);
    const std::size_t pages = put.candidates.size();
    const std::uint32_t live = live_page(block);
    const bool done = put.number < pages;
    bool some_page = false;
    bool some_number = false;
    bool equal = false;
    bool cheaper_alone = false;
    bool no_number = false;
    for (std::size_t number = 0; number < pages; ++number) {
      const Candidate& other = put.candidates[number];
      some_page = some_page || other.page_serves();
      some_number = some_number || other.directory_serves();
      no_number = no_number || (other.page_serves() && !other.directory_serves());
      if (!done || !other.serves()) continue;
      const Candidate& chosen = put.candidates[put.number];
      equal = equal || (number != put.number && other.cost() == chosen.cost());
      cheaper_alone = cheaper_alone || other.page.answer < chosen.page.answer;
    }
    ++counts_.puts[pages];
    counts_.puts_pages_spent[i] += !some_page && some_number ? 1 : 0;
    counts_.puts_numbers_spent[i] += !done && some_page ? 1 : 0;
    if (!done) return;
    counts_.puts_kept[i] += live == put.number ? 1 : 0;
    counts_.puts_changed[i] += live < pages && live != put.number ? 1 : 0;
    counts_.puts_from_none[i] += live >= pages ? 1 : 0;
    counts_.puts_lowest[i] += equal ? 1 : 0;
    counts_.puts_by_path[i] += put.after.tie ? 1 : 0;
    counts_.puts_by_directory[i] += cheaper_alone ? 1 : 0;
    counts_.puts_live_spent[i] += live < pages && !put.candidates[live].page_serves() ? 1 : 0;
    counts_.puts_no_number[i] += no_number ? 1 : 0;
    counts_.puts_not_square[i] += shape.strips > 1 && shape.bytes != shape.strips ? 1 : 0;
  }

  // Beside a write with weights, the library's own without: spent with the same strip, or neither is; and whether the weights decided the page.
  void judge_weights(const Code& code, Shape shape, const Weights& weights, const Bytes& page, const Bytes& data, const PageSearch& least) {
    const Call call = {kWriteWeighted, code.name, shape.bytes, shape.strips, weights, page, data, 0};
    const Outcome plain = made(Call{kWrite, code.name, shape.bytes, shape.strips, kHouse, page, data, 0});
    const bool spent = SEGRUNOV_NUMBER(plain.answer) == SEGRUNOV_SPENT;
    if (spent != (SEGRUNOV_NUMBER(least.answer) == SEGRUNOV_SPENT) || (spent && plain.answer != least.answer)) {
      disagree("spent depends on the weights", call, plain, written(least, data));
    }
    counts_.decided[code_index(code)] += plain.page != least.page ? 1 : 0;
  }

  void count_write(const Code& code, const PageSearch& least) {
    const std::size_t i = code_index(code);
    ++(SEGRUNOV_NUMBER(least.answer) == SEGRUNOV_DONE ? counts_.done : counts_.spent)[i];
    counts_.ties[i] += least.tie ? 1 : 0;
    counts_.out_of_order[i] += least.out_of_order ? 1 : 0;
    counts_.strip_decides[i] += least.strip_decides ? 1 : 0;
    counts_.late_spent[i] += least.late_spent ? 1 : 0;
    counts_.last_spent[i] += least.answer == answer_of(SEGRUNOV_SPENT, kMost - 1) ? 1 : 0;
  }

  std::mt19937_64 random_;
  const Factor factor_;
  Counts counts_;
};

// ---------------------------------------------------------------- the cases

// The known cells of document 01, with the bytes that document 02 has for 01, hold the search itself to the papers before it judges anything.
void check_known_cells() {
  struct Known {
    std::size_t code;
    Bytes page;
    Bytes data;
    std::uint64_t answer;
    Bytes after;
  };
  const Bytes erased(6, 0);
  const Bytes full(6, 0xff);
  const Bytes half = {0, 0, 0, 0, 0, 0, 255, 255, 255, 255, 255, 255};
  const std::vector<Known> table = {
      {0, erased, {0x00}, 0, erased},
      {0, erased, {0x01}, 48, {0x01, 0x03, 0, 0, 0, 0}},
      {0, erased, {0x40}, 16, {0, 0, 0, 0, 0x10, 0}},
      {0, erased, {0x80}, 16, {0, 0, 0, 0, 0, 0x20}},
      {1, erased, {0x80}, 16, {0, 0, 0, 0, 0, 0x20}},
      {0, full, {0xfe}, 0, full},
      {1, full, {0x1e}, 0, full},
      {0, full, {0x80}, answer_of(SEGRUNOV_SPENT, 0), full},
      {0, Bytes(12, 0), {0x80, 0x40}, 32, {0, 0, 0, 0, 0, 0x20, 0, 0, 0, 0, 0x10, 0}},
      {0, half, {0x80, 0x00}, answer_of(SEGRUNOV_SPENT, 1), half},
      {0, half, {0x80, 0xfe}, 16, {0, 0, 0, 0, 0, 0x20, 255, 255, 255, 255, 255, 255}},
  };
  for (const Known& known : table) {
    const Shape shape = {1, static_cast<std::uint32_t>(known.data.size())};
    const PageSearch least = search_page(kCodes[known.code], shape, kHouse, known.page, no_marks(shape), known.data);
    if (least.answer != known.answer || least.page != known.after) give_up("the search itself is wrong: a known cell of document 01");
  }
}

void check_known_run() {
  Bytes page(6, 0);
  std::uint8_t byte = 0x80;
  for (const unsigned cost : {16U, 16U, 20U, 20U, 28U, 28U, 32U}) {
    const PageSearch least = search_page(kCodes[0], Shape{1, 1}, kHouse, page, Bytes(2, 0), Bytes{byte});
    if (least.answer != cost) give_up("the search itself is wrong: the known run of document 01");
    page = least.page;
    byte ^= 0x80;
  }
}

// Document 02: 'with every cell marked at level 0 it takes only zeros'. And document 01's tie of the cells 14 and 15 with either of them marked.
void check_known_marks() {
  const Bytes erased(6, 0);
  for (const Code& code : kCodes) {
    for (unsigned byte = 0; byte < 256; ++byte) {
      const Bytes data = {static_cast<std::uint8_t>(byte)};
      const PageSearch least = search_page(code, Shape{1, 1}, kHouse, erased, Bytes(2, 0xff), data);
      if (least.answer != (byte == 0 ? 0 : answer_of(SEGRUNOV_SPENT, 0))) give_up("the search itself is wrong: every cell marked at level 0");
    }
    const PageSearch cell_14 = search_page(code, Shape{1, 1}, kHouse, erased, Bytes{0, 0x80}, Bytes{0x80});
    const PageSearch cell_15 = search_page(code, Shape{1, 1}, kHouse, erased, Bytes{0, 0x40}, Bytes{0x80});
    if (cell_14.answer != 16 || cell_14.page != Bytes{0, 0, 0, 0, 0, 0x10}) give_up("the search itself is wrong: cell 15 marked");
    if (cell_15.answer != 16 || cell_15.page != Bytes{0, 0, 0, 0, 0, 0x20}) give_up("the search itself is wrong: cell 14 marked");
  }
}

// Document 02's words on made-up costs: 'the cheapest', then 'the nearest, then the lower'; and spent only where every value of the band is.
void check_known_bands() {
  struct Known {
    std::array<std::uint64_t, 5> answers;  // to plain writes of 98 to 102
    std::uint32_t band;
    std::uint32_t stored;  // for 100, or 100 where all are spent
  };
  const std::uint64_t spent = answer_of(SEGRUNOV_SPENT, 0);
  const std::vector<Known> table = {
      {{16, 20, 48, 20, 16}, 0, 100},       {{16, 20, 48, 20, 16}, 1, 99},       {{16, 20, 48, 20, 16}, 2, 98},
      {{16, 48, 48, 16, 16}, 2, 101},       {{20, 16, 16, 16, 20}, 2, 100},      {{48, 48, 48, 48, 16}, 2, 102},
      {{20, spent, spent, 48, 0}, 1, 101},  {{spent, 48, spent, 20, 0}, 1, 101}, {{0, spent, spent, spent, 0}, 1, 100},
      {{spent, spent, 0, spent, 0}, 2, 100}};
  for (const Known& known : table) {
    std::vector<Offer> offers(known.answers.size());
    for (std::uint32_t i = 0; i < offers.size(); ++i) {
      offers[i].value = 98 + i;
      offers[i].write.answer = known.answers[i];
    }
    if (taken(offers, 100, known.band).value != known.stored) give_up("the search itself is wrong: a band of made-up costs");
  }
}

// Document 02's words on made-up costs: the least sum of page and directory, 'lowest number first'; and spent only
// where no page has both.
void check_known_blocks() {
  struct Known {
    std::vector<std::uint64_t> pages;      // answers to plain writes of the data
    std::vector<std::uint64_t> directory;  // and of the number
    std::size_t chosen;                    // the number of pages where the block is spent
  };
  const std::uint64_t spent = answer_of(SEGRUNOV_SPENT, 0);
  const std::vector<Known> table = {
      {{16, 0}, {0, 48}, 0},          {{64, 0}, {0, 48}, 1},          {{48, 0}, {0, 48}, 0},
      {{0, 48}, {48, 0}, 0},          {{spent, 48}, {0, 48}, 1},      {{0, 48}, {spent, 48}, 1},
      {{spent, 0}, {0, spent}, 2},    {{spent, spent}, {0, 16}, 2},   {{16, 0}, {spent, spent}, 2},
      {{20, 16, 16}, {0, 20, 16}, 0}, {{48, 20, 16}, {0, 16, 20}, 1}, {{spent, 20, 0}, {0, 16, spent}, 1}};
  for (const Known& known : table) {
    std::vector<Candidate> candidates(known.pages.size());
    for (std::size_t number = 0; number < candidates.size(); ++number) {
      candidates[number].page.answer = known.pages[number];
      candidates[number].directory.answer = known.directory[number];
    }
    if (chosen_page(candidates) != known.chosen) give_up("the search itself is wrong: a block of made-up costs");
  }
}

void progress(const Judge& judge, const char* section) {
  std::printf("%s: %llu calls so far\n", section, static_cast<unsigned long long>(judge.calls()));
  std::fflush(stdout);
}

void every_data_byte(Judge& judge, const Code& code, const Weighing& weighing, const Bytes& page) {
  const Shape shape = {1, 1};
  judge.for_each_byte([&](std::uint8_t byte) { judge.judge_write(code, shape, weighing, page, Bytes{byte}); });
  judge.judge_kept(code, shape, page);
}

// One-byte strips: each of the 256 data on pages of every kind.
void small_pages(Judge& judge) {
  for (const Code& code : kCodes) {
    for (const Bytes& page : {Bytes(6, 0), Bytes(6, 0xff)}) {
      every_data_byte(judge, code, kPlain, page);
      every_data_byte(judge, code, judge.random_weighted(), page);
    }
    for (unsigned round = 40 * judge.times(); round > 0; --round) {
      for (std::uint64_t kind = 1; kind + 1 < Judge::kStripKinds; ++kind) {
        const Bytes page = judge.strip_of_kind(kind, 6);
        every_data_byte(judge, code, kPlain, page);
        every_data_byte(judge, code, judge.random_weighted(), page);
      }
      if (round % 10 == 1) progress(judge, "one-byte strips");
    }
  }
}

void one_page(Judge& judge, const Code& code, Shape shape) {
  const Bytes page = judge.random_page(shape);
  judge.judge_kept(code, shape, page);
  const Bytes after = judge.judge_write(code, shape, kPlain, page, judge.random_data(code, shape, page)).page;
  judge.judge_kept(code, shape, after);
  const Weighing weighing = judge.random_weighted();
  judge.judge_write(code, shape, weighing, after, judge.random_data(code, shape, after));
}

// Any L and S with few bytes in all: the search of the long code has 4096 states a stage.
Shape random_shape(Judge& judge, std::uint32_t most_bytes) {
  const auto product = static_cast<std::uint32_t>(1 + judge.below(most_bytes));
  const auto bytes = static_cast<std::uint32_t>(1 + judge.below(std::min(product, kMost)));
  return Shape{bytes, std::min(std::max<std::uint32_t>(product / bytes, 1), kMost)};
}

void random_shapes(Judge& judge) {
  for (unsigned round = judge.rounds(200, 4); round > 0; --round) {
    for (unsigned i = 0; i < 8; ++i) one_page(judge, kCodes[0], random_shape(judge, 64));
    for (unsigned i = 0; i < 4; ++i) one_page(judge, kCodes[1], random_shape(judge, 4));
    one_page(judge, kCodes[1], random_shape(judge, 16));
    if (round % 50 == 1) progress(judge, "random shapes");
  }
}

Shape any_shape(Judge& judge) {
  const auto bytes = static_cast<std::uint32_t>(1 + judge.below(kMost));
  return Shape{bytes, static_cast<std::uint32_t>(1 + judge.below(kMost))};
}

constexpr std::array<Shape, 5> kLargeShapes = {Shape{64, 64}, Shape{64, 1}, Shape{1, 64}, Shape{63, 64}, Shape{64, 63}};

void fitting_write(Judge& judge, const Code& code, const Weighing& weighing, Shape shape, std::uint64_t kind) {
  const Bytes page = judge.strip_of_kind(kind, page_length(shape));
  const Bytes after = judge.judge_write(code, shape, weighing, page, judge.fitting_data(code, shape, page)).page;
  judge.judge_kept(code, shape, after);
}

// Without weights, with some, and with the dearest.
void fitting_writes(Judge& judge, const Code& code, Shape shape, std::uint64_t kind) {
  const Weighing dearest = {true, {255, 255, 255}};
  for (const Weighing& weighing : {kPlain, judge.random_weighted(), dearest}) fitting_write(judge, code, weighing, shape, kind);
}

// Every strip but the last takes its data, and that one hardly ever does.
void late_write(Judge& judge, const Code& code, Shape shape) {
  const Bytes page = judge.random_full_cells(page_length(shape), 3, 4);
  for (const Weighing& weighing : {kPlain, judge.random_weighted()}) {
    judge.judge_write(code, shape, weighing, page, judge.late_data(code, shape, page));
  }
}

struct LargePage {
  std::size_t code;
  Shape shape;
  unsigned kind;
};

// The limits of L and S. With the long code the widest page has half its cells full, or the search would not end in time.
std::vector<LargePage> every_large_page() {
  std::vector<LargePage> pages;
  for (const Shape shape : kLargeShapes) {
    for (const unsigned kind : {0U, 1U, 4U, 5U, 6U}) pages.push_back(LargePage{0, shape, kind});
    for (const unsigned kind : {4U, 5U}) pages.push_back(LargePage{1, shape, kind});
  }
  for (const unsigned kind : {0U, 1U, 2U, 6U}) pages.push_back(LargePage{1, Shape{1, 64}, kind});
  for (const unsigned kind : {0U, 1U, 2U, 6U}) pages.push_back(LargePage{1, Shape{64, 1}, kind});
  for (const unsigned kind : {0U, 1U}) pages.push_back(LargePage{1, Shape{8, 8}, kind});
  return pages;
}

void large_pages(Judge& judge) {
  unsigned number = 0;
  for (const LargePage& large : every_large_page()) {
    if (judge.due(number++)) fitting_writes(judge, kCodes[large.code], large.shape, large.kind);
  }
  progress(judge, "large pages");
  for (const Shape shape : kLargeShapes) {
    for (const Code& code : kCodes) {
      if (!judge.due(number++)) continue;
      judge.judge_kept(code, shape, judge.random_page(shape));
      late_write(judge, code, shape);
    }
  }
  for (unsigned round = judge.rounds(30, 4); round > 0; --round) {
    for (const Code& code : kCodes) late_write(judge, code, Shape{1, 64});
  }
  for (unsigned round = judge.rounds(30, 1); round > 0; --round) {
    one_page(judge, kCodes[0], any_shape(judge));
    for (const unsigned kind : {4U, 5U}) fitting_writes(judge, kCodes[1], any_shape(judge), kind);
  }
  progress(judge, "large pages");
}

// From erased until spent and some writes beyond, then an erase; with mixed, each write with or without weights as it falls. The page is carried
// along; the judged calls have shown it to be the library's. The sum of its levels is the raises since the start, whatever they cost.
void run_until_spent(Judge& judge, const Code& code, Shape shape, bool small_changes, bool mixed) {
  const Bytes erased(page_length(shape), 0);
  Bytes page = erased;
  std::uint64_t raises = 0;
  unsigned beyond = 0;
  while (beyond < 4) {
    const Bytes data = small_changes ? judge.near_data(code, shape, page) : judge.random_bytes(data_length(shape));
    const Weighing weighing = mixed && judge.chance(1, 2) ? judge.random_weighted() : kPlain;
    const PageSearch least = judge.judge_write(code, shape, weighing, page, data);
    if (beyond > 0 || SEGRUNOV_NUMBER(least.answer) == SEGRUNOV_SPENT) ++beyond;
    page = least.page;
    raises += least.raises;
    judge.hold_ledger(erased, raises, page);
  }
  judge.count_run(code, mixed);
  judge.judge_kept(code, shape, page);
  const auto tenths = static_cast<std::int16_t>(50 + judge.below(351));
  judge.judge(Call{kErase, 0, shape.bytes, shape.strips, kHouse, page, Bytes(), tenths}, Outcome{0, erased, Bytes()});
}

void runs(Judge& judge) {
  unsigned number = 0;
  for (const bool mixed : {false, true}) {
    for (unsigned round = judge.rounds(50, 1); round > 0; --round) {
      for (const bool small_changes : {false, true}) {
        run_until_spent(judge, kCodes[0], random_shape(judge, 16), small_changes, mixed);
        run_until_spent(judge, kCodes[1], random_shape(judge, 2), small_changes, mixed);
      }
    }
    for (const Shape shape : {Shape{3, 20}, Shape{64, 2}}) {
      if (judge.due(number++)) run_until_spent(judge, kCodes[0], shape, false, mixed);
    }
    for (const Shape shape : {Shape{1, 16}, Shape{6, 1}}) {
      if (judge.due(number++)) run_until_spent(judge, kCodes[1], shape, false, mixed);
    }
  }
  progress(judge, "runs until spent");
}

bool within(std::uint32_t number) { return number >= 1 && number <= kMost; }

bool allowed_temperature(std::int16_t tenths) { return tenths >= 50 && tenths <= 400; }

// Whether a length is so many times another number. The product may pass 64 bits; the quotient tells without forming it.
bool is_times(std::uint64_t length, std::uint64_t times, std::uint64_t of) {
  return of == 0 ? length == 0 : length % of == 0 && length / of == times;
}

// Whether a length is that of the page, or of the block: the directory and the pages.
bool right_page_length(const Call& call, std::uint64_t data_bytes) {
  if (!is_block(call.function)) return is_times(call.page.size(), 6, data_bytes);
  const std::size_t directory = page_length(kDirectory);
  return call.page.size() >= directory && is_times(call.page.size() - directory, std::uint64_t{6} * call.pages, data_bytes);
}

// The grounds of documents 01 and 02 that apply to a call, in their order; a 7 and a 14 are left to the caller.
std::vector<std::uint32_t> grounds(const Call& call) {
  std::vector<std::uint32_t> numbers;
  const bool erase = is_erase(call.function);
  const std::uint64_t data_bytes = std::uint64_t{call.bytes} * call.strips;
  if (!erase && call.code != 3 && call.code != 7) numbers.push_back(SEGRUNOV_CODE);
  if (is_band(call.function) && call.band > kWidest) numbers.push_back(SEGRUNOV_BAND);
  if (!within(call.bytes)) numbers.push_back(SEGRUNOV_BYTES);
  if (!within(call.strips)) numbers.push_back(SEGRUNOV_STRIPS);
  if (is_block(call.function) && (call.pages < kFewestPages || call.pages > kMostPages)) numbers.push_back(SEGRUNOV_PAGES);
  const bool zero = std::count(call.weights.begin(), call.weights.end(), 0) > 0;
  if (takes_weights(call.function) && zero) numbers.push_back(SEGRUNOV_WEIGHT);
  if (is_list(call.function) && !within(call.count)) numbers.push_back(SEGRUNOV_COUNT);
  if (!right_page_length(call, data_bytes)) numbers.push_back(SEGRUNOV_PAGE_LENGTH);
  if (takes_map(call.function) && !is_times(call.map.size(), 2, data_bytes)) numbers.push_back(SEGRUNOV_MAP_LENGTH);
  const std::uint32_t datas = is_list(call.function) ? call.count : 1;
  if (takes_data(call.function) && !is_times(call.data.size(), datas, data_bytes)) numbers.push_back(SEGRUNOV_DATA_LENGTH);
  if (erase && !allowed_temperature(call.tenths)) numbers.push_back(SEGRUNOV_TEMPERATURE);
  return numbers;
}

std::uint32_t bad_code(Judge& judge) {
  const std::array<std::uint32_t, 12> values = {0, 1, 2, 4, 5, 6, 8, 259, 263, 0x80000003U, 0x10007U, 0xffffffffU};
  return values[judge.place_below(values.size())];
}

std::uint32_t bad_number(Judge& judge) {
  const std::array<std::uint32_t, 10> values = {0, 65, 66, 128, 255, 257, 0x10001U, 0x40000000U, 0x80000001U, 0xffffffffU};
  return values[judge.place_below(values.size())];
}

// Just above the widest, and numbers whose lower byte or half is a band.
std::uint32_t bad_band(Judge& judge) {
  const std::array<std::uint32_t, 10> values = {9, 10, 16, 255, 256, 264, 0x10000U, 0x10008U, 0x80000001U, 0xffffffffU};
  return values[judge.place_below(values.size())];
}

// Just outside the limits, and numbers whose lower byte or half is within.
std::uint32_t bad_pages(Judge& judge) {
  const std::array<std::uint32_t, 10> values = {0, 1, 17, 18, 19, 32, 254, 258, 0x10002U, 0xffffffffU};
  return values[judge.place_below(values.size())];
}

// Another length than the right one: nothing, a little off, one strip or page more, 2^16 more.
std::size_t bad_length(Judge& judge, std::size_t right) {
  switch (judge.below(7)) {
    case 0: return 0;
    case 1: return right == 0 ? 1 : right - 1;
    case 2: return right + 1;
    case 3: return right + 6;
    case 4: return 2 * right + 1;
    case 5: return right / 2;
    default: return right + 65536;
  }
}

std::int16_t bad_temperature(Judge& judge) {
  const std::array<std::int16_t, 9> values = {49, 401, -1, -32768, 32767, 0, -50, -400, 656};
  return values[judge.place_below(values.size())];
}

// The length that goes with L and S, also with bad ones as far as memory allows, so that often a single ground applies: 64 and 257 are still among
// them. The product wraps at 2^32, as a careless one would.
std::size_t length_for(std::uint32_t bytes, std::uint32_t strips, std::size_t factor) {
  const std::uint32_t product = bytes * strips;
  return product <= 257 * kMost ? factor * product : factor;
}

// The data of so many with that many bytes each, also with a bad count as far as memory allows: 65 and 66 of the largest.
std::size_t list_length_for(std::uint32_t count, std::size_t data_bytes) {
  const std::uint64_t product = count * std::uint64_t{data_bytes};
  return product <= 66 * kMost * kMost ? static_cast<std::size_t>(product) : data_bytes;
}

// The block of so many pages, also with a bad number as far as memory allows: 17 of the largest.
std::size_t block_length_for(std::uint32_t pages, std::size_t page_bytes) {
  const std::uint64_t product = pages * std::uint64_t{page_bytes};
  const bool fits = product <= (kMostPages + 1) * page_length(Shape{kMost, kMost});
  return page_length(kDirectory) + (fits ? static_cast<std::size_t>(product) : page_bytes);
}

// The write in a band has a shape of its own, and of the items the code, the page and the band.
Call band_with_faults(Judge& judge, std::uint64_t set) {
  Call call = {kWriteBand, judge.chance(1, 2) ? 3U : 7U, kBandShape.bytes, kBandShape.strips, kHouse, Bytes(), Bytes(), 0};
  if ((set & 1) != 0) call.code = bad_code(judge);
  const std::size_t page_bytes = page_length(kBandShape);
  const std::size_t length = (set & 8) != 0 ? bad_length(judge, page_bytes) : page_bytes;
  call.page = judge.chance(1, 2) ? Bytes(length, 0xff) : judge.random_bytes(length);
  call.value = static_cast<std::uint32_t>(judge.below(kLastValue + 1));
  call.band = (set & 256) != 0 ? bad_band(judge) : static_cast<std::uint32_t>(judge.below(kWidest + 1));
  return call;
}

// A call with these items at fault: bit 0 the code, 1 L, 2 S, 3 the page or block, 4 the data or the temperature, 5 a
// weight, 6 the map, 7 the count, 8 the band, 9 the number of pages. Half of the pages are full and hardly ever take
// the random data, so that 7 competes with the grounds from the input; and a full directory names no page, so that 14
// does.
Call call_with_faults(Judge& judge, Function function, Shape shape, std::uint64_t set) {
  if (is_band(function)) return band_with_faults(judge, set);
  Call call = {function, judge.chance(1, 2) ? 3U : 7U, shape.bytes, shape.strips, judge.random_weights(), Bytes(), Bytes(), 250};
  if ((set & 1) != 0) call.code = bad_code(judge);
  if ((set & 2) != 0) call.bytes = bad_number(judge);
  if ((set & 4) != 0) call.strips = bad_number(judge);
  if ((set & 32) != 0) call.weights[judge.place_below(kFull)] = 0;
  std::size_t page_bytes = length_for(call.bytes, call.strips, 6);
  std::size_t data_bytes = length_for(call.bytes, call.strips, 1);
  if (is_list(function)) {
    call.count = (set & 128) != 0 ? bad_number(judge) : judge.chance(1, 8) ? kMost : static_cast<std::uint32_t>(1 + judge.below(4));
    data_bytes = list_length_for(call.count, data_bytes);
  }
  if (is_block(function)) {
    const auto few = static_cast<std::uint32_t>(kFewestPages + judge.below(3));
    call.pages = (set & 512) != 0 ? bad_pages(judge) : judge.chance(1, 8) ? kMostPages : few;
    page_bytes = block_length_for(call.pages, page_bytes);
  }
  if ((set & 8) != 0) {
    // the pages alone are no block
    const bool pages_alone = is_block(function) && judge.chance(1, 4);
    page_bytes = pages_alone ? page_bytes - page_length(kDirectory) : bad_length(judge, page_bytes);
  }
  if ((set & 16) != 0) data_bytes = bad_length(judge, data_bytes);
  if (is_erase(function) && (set & 16) != 0) call.tenths = bad_temperature(judge);
  call.page = judge.chance(1, 2) ? Bytes(page_bytes, 0xff) : judge.random_bytes(page_bytes);
  call.data = judge.random_bytes(data_bytes);
  if (takes_map(function)) {
    const std::size_t map_bytes = length_for(call.bytes, call.strips, 2);
    call.map = judge.random_bytes((set & 64) != 0 ? bad_length(judge, map_bytes) : map_bytes);
  }
  return call;
}

// Functions whose refusals are judged together, from the first to before the last, and how many of the items they have.
struct Group {
  unsigned first;
  unsigned last;
  std::uint64_t items;
  const char* section;
};
constexpr Group kPlainCalls = {0, kUnmapped, 6, "refusals"};
constexpr Group kMappedCalls = {kUnmapped, kSingle, 7, "refusals with a map"};
constexpr Group kListCalls = {kSingle, kExact, 8, "refusals of lists"};
constexpr Group kBandCalls = {kExact, kOnePage, 9, "refusals of bands"};
constexpr Group kBlockCalls = {kOnePage, kFunctions, 10, "refusals of blocks"};

// Few of the items at fault as a rule, now and then any of them.
Call spoiled_call(Judge& judge, const Group& group) {
  const auto function = static_cast<Function>(group.first + judge.below(group.last - group.first));
  Shape shape = {static_cast<std::uint32_t>(1 + judge.below(4)), static_cast<std::uint32_t>(1 + judge.below(4))};
  if (judge.chance(1, 8)) shape = Shape{kMost, kMost};
  const std::uint64_t sets = std::uint64_t{1} << group.items;
  const std::uint64_t one = std::uint64_t{1} << judge.below(group.items);
  const std::uint64_t any = judge.below(sets);
  const std::uint64_t few = any & judge.below(sets);
  return call_with_faults(judge, function, shape, judge.chance(1, 3) ? one : few);
}

void refusals(Judge& judge, unsigned whole, const Group& group) {
  for (unsigned round = judge.rounds(whole, 1000); round > 0; --round) {
    const Call call = spoiled_call(judge, group);
    const std::vector<std::uint32_t> numbers = grounds(call);
    if (numbers.empty()) continue;
    judge.judge_refusal(call, numbers.front());
    if (numbers.size() > 1) judge.count_several_grounds();
  }
  progress(judge, group.section);
}

// The numbers with which a function can refuse, in the order in which they are tested.
std::vector<std::uint32_t> refusals_of(Function function) {
  switch (function) {
    case kRead: return {1, 2, 3, 4, 5};
    case kErase: return {2, 3, 4, 8};
    case kPriceWeighted:
    case kWriteWeighted: return {1, 2, 3, 9, 4, 5, 7};
    case kPriceMapped:
    case kWriteMapped: return {1, 2, 3, 9, 4, 11, 5, 7};
    case kEraseMapped: return {2, 3, 4, 11, 8};
    case kList: return {1, 2, 3, 9, 10, 4, 5, 7};
    case kListMapped: return {1, 2, 3, 9, 10, 4, 11, 5, 7};
    case kWriteBand: return {1, 12, 4, 7};
    case kBlockPut: return {1, 2, 3, 13, 4, 5, 7};
    case kBlockGet: return {1, 2, 3, 13, 4, 5, 14};
    case kBlockErase: return {2, 3, 13, 4, 8};
    default: return {1, 2, 3, 4, 5, 7};
  }
}

// The item of call_with_faults that a refusal speaks of; of a 7 and a 14 none.
std::uint64_t item_of(std::uint32_t number) {
  switch (number) {
    case SEGRUNOV_CODE: return 1;
    case SEGRUNOV_BYTES: return 2;
    case SEGRUNOV_STRIPS: return 4;
    case SEGRUNOV_PAGE_LENGTH: return 8;
    case SEGRUNOV_WEIGHT: return 32;
    case SEGRUNOV_MAP_LENGTH: return 64;
    case SEGRUNOV_COUNT: return 128;
    case SEGRUNOV_BAND: return 256;
    case SEGRUNOV_PAGES: return 512;
    case SEGRUNOV_SPENT:
    case SEGRUNOV_NO_PAGE: return 0;
    default: return 16;
  }
}

// Whether the band, however wide, does not have the value that a full page reads as, whatever the code.
bool far_from_full(const Call& call) {
  return std::all_of(kCodes.begin(), kCodes.end(), [&](const Code& code) {
    return away(value_of_bytes(read_page(code, kBandShape, Bytes(page_length(kBandShape), 0xff))), call.value) > call.band;
  });
}

// Whether a full page of the call's kind does not take its data; a full directory names no page, and takes the number
// of none.
bool full_takes_none(const Call& call) {
  if (is_block(call.function)) return live_page(Bytes(page_length(kDirectory), 0xff)) >= call.pages;
  return is_band(call.function) ? far_from_full(call) : !call.data.empty();
}

// Two grounds at once: the first in the order is the answer. A page is spent where it is full and the data zeros, since no full page reads as zeros;
// or where it is erased with every cell marked and the data is not zeros. For a band it is full, and what it reads as
// is no value of the band. A block is full, which is a 7 for a put and a 14 for a get.
void two_grounds(Judge& judge, Function function, std::uint32_t first, std::uint32_t second) {
  const Shape shape = {static_cast<std::uint32_t>(1 + judge.below(4)), static_cast<std::uint32_t>(1 + judge.below(4))};
  Call call = call_with_faults(judge, function, shape, item_of(first) | item_of(second));
  std::vector<std::uint32_t> wanted = {first};
  const bool from_state = second == SEGRUNOV_SPENT || second == SEGRUNOV_NO_PAGE;
  if (from_state) {
    const bool by_marks = takes_map(function) && judge.chance(1, 2);
    call.page.assign(call.page.size(), by_marks ? 0x00 : 0xff);
    call.data.assign(call.data.size(), by_marks ? 0xff : 0x00);
    if (by_marks) call.map.assign(call.map.size(), 0xff);
  } else {
    wanted.push_back(second);
  }
  const std::vector<std::uint32_t> numbers = grounds(call);
  // A length that fits an L, S or count far beyond the limits is not to be had: then there is a third ground. And for no data no page is spent.
  const bool both = numbers == wanted && (!from_state || full_takes_none(call));
  if (both) judge.count_pair(function, first, second);
  judge.judge_refusal(call, numbers.front());
}

// Every two grounds of some calls.
void pairs_of_grounds(Judge& judge, const Group& group) {
  for (unsigned f = group.first; f < group.last; ++f) {
    const auto function = static_cast<Function>(f);
    const std::vector<std::uint32_t> order = refusals_of(function);
    for (std::size_t i = 0; i < order.size(); ++i) {
      for (std::size_t j = i + 1; j < order.size(); ++j) {
        for (unsigned round = judge.rounds(40, 30); round > 0; --round) two_grounds(judge, function, order[i], order[j]);
      }
    }
  }
  progress(judge, "pairs of grounds");
}

void erase_at(Judge& judge, Shape shape, std::int16_t tenths) {
  const Call call = {kErase, 0, shape.bytes, shape.strips, kHouse, judge.random_page(shape), Bytes(), tenths};
  if (allowed_temperature(tenths)) {
    judge.judge(call, Outcome{0, Bytes(call.page.size(), 0), Bytes()});
    judge.judge_mapped_erase(shape, call.page, no_marks(shape), tenths);
  } else {
    judge.judge_refusal(call, SEGRUNOV_TEMPERATURE);
  }
}

void erases(Judge& judge) {
  const std::array<std::int16_t, 14> boundaries = {-32768, -32767, -400, -50, -1, 0, 1, 49, 50, 51, 399, 400, 401, 32767};
  for (const Shape shape : {Shape{1, 1}, Shape{64, 64}, Shape{64, 1}, Shape{1, 64}, Shape{3, 5}}) {
    for (const std::int16_t tenths : boundaries) erase_at(judge, shape, tenths);
  }
  for (unsigned round = judge.rounds(2000, 20); round > 0; --round) {
    const Shape shape = random_shape(judge, 128);
    erase_at(judge, shape, static_cast<std::int16_t>(static_cast<int>(judge.below(65536)) - 32768));
    erase_at(judge, shape, static_cast<std::int16_t>(static_cast<int>(judge.below(450)) - 20));
  }
  progress(judge, "erases");
}

// Shapes whose strip 1 begins with a cell of number 1 or 2 mod 3 in the page, the largest, and any.
void older_runs(Judge& judge) {
  for (const Code& code : kCodes) {
    for (const Shape shape : {Shape{1, 2}, Shape{2, 3}, Shape{64, 64}}) judge.judge_run_beside_older(code, shape, kPlain);
    for (unsigned round = judge.rounds(5, 1); round > 0; --round) {
      judge.judge_run_beside_older(code, any_shape(judge), kPlain);
      const Weighing weighing = judge.random_weighted();
      judge.judge_run_beside_older(code, any_shape(judge), weighing);
    }
  }
  progress(judge, "older pages until spent");
}

// ---------------------------------------------------------------- the cases with a map

constexpr std::array<MapKind, kMapKinds> kAllMapKinds = {kNone, kFew, kHalf, kNearlyAll, kAll, kOneStrip};

MapKind random_kind(Judge& judge) { return kAllMapKinds[judge.place_below(kMapKinds)]; }

Weights some_weights(Judge& judge) { return judge.chance(1, 3) ? kHouse : judge.random_weights(); }

void mapped_page(Judge& judge, const Code& code, Shape shape, const Bytes& page, MapKind kind) {
  const Bytes map = judge.map_of_kind(kind, shape);
  judge.count_map(kind);
  const Weights weights = some_weights(judge);
  const PageSearch least = judge.judge_mapped(code, shape, weights, page, map, judge.mapped_data(code, shape, page, map));
  judge.judge_mapped_kept(code, shape, least.page, map);
  judge.judge_all_marked(code, shape, page, judge.near_data(code, shape, page));
  judge.judge_all_marked(code, shape, page, read_page(code, shape, page));
}

void fitting_mapped_write(Judge& judge, const Code& code, Shape shape, const Bytes& page, MapKind kind) {
  const Bytes map = judge.map_of_kind(kind, shape);
  const Weights weights = some_weights(judge);
  judge.judge_mapped(code, shape, weights, page, map, judge.mapped_fitting_data(code, shape, page, map));
}

void every_mapped_byte(Judge& judge, const Code& code, const Bytes& page, const Bytes& map) {
  const Weights weights = some_weights(judge);
  judge.for_each_byte([&](std::uint8_t byte) { judge.judge_mapped(code, Shape{1, 1}, weights, page, map, Bytes{byte}); });
}

// One-byte strips: each of the 256 data, with each cell marked by itself and with maps of every kind.
void mapped_small_pages(Judge& judge) {
  for (const Code& code : kCodes) {
    for (std::size_t cell = 0; cell < 16; ++cell) {
      Bytes map(2, 0);
      flip_bit(map, cell);
      every_mapped_byte(judge, code, Bytes(6, 0), map);
      every_mapped_byte(judge, code, judge.random_bytes(6), map);
    }
    for (unsigned round = 30 * judge.times(); round > 0; --round) {
      for (const MapKind kind : kAllMapKinds) {
        const Bytes page = judge.strip_of_kind(judge.below(Judge::kStripKinds), 6);
        every_mapped_byte(judge, code, page, judge.map_of_kind(kind, Shape{1, 1}));
      }
    }
    progress(judge, "one-byte strips with a map");
  }
}

void mapped_shapes(Judge& judge) {
  const auto one = [&](const Code& code, Shape shape) {
    const Bytes page = judge.chance(1, 4) ? Bytes(page_length(shape), 0) : judge.random_page(shape);
    mapped_page(judge, code, shape, page, random_kind(judge));
  };
  for (unsigned round = judge.rounds(300, 10); round > 0; --round) {
    for (unsigned i = 0; i < 8; ++i) one(kCodes[0], random_shape(judge, 64));
    for (unsigned i = 0; i < 6; ++i) one(kCodes[1], random_shape(judge, 4));
    one(kCodes[1], random_shape(judge, 16));
  }
  progress(judge, "random shapes with a map");
}

// The limits of L and S. With the long code the search of a wide page ends in time only where most of its cells are marked or full.
void mapped_large_pages(Judge& judge) {
  unsigned number = 0;
  unsigned shapes = 0;
  for (const Shape shape : kLargeShapes) {
    for (const MapKind kind : kAllMapKinds) {
      if (judge.due(number++)) mapped_page(judge, kCodes[0], shape, judge.strip_of_kind(6, page_length(shape)), kind);
    }
    if (!judge.due(shapes++)) continue;
    fitting_mapped_write(judge, kCodes[0], shape, judge.strip_of_kind(6, page_length(shape)), kFew);
    mapped_page(judge, kCodes[1], shape, judge.random_page(shape), kNearlyAll);
    fitting_mapped_write(judge, kCodes[1], shape, judge.strip_of_kind(6, page_length(shape)), kNearlyAll);
    fitting_mapped_write(judge, kCodes[1], shape, judge.random_full_cells(page_length(shape), 1, 2), kHalf);
    for (const Code& code : kCodes) {
      for (const MapKind kind : kAllMapKinds) {
        const Bytes page = judge.random_page(shape);
        judge.judge_mapped_kept(code, shape, page, judge.map_of_kind(kind, shape));
        judge.judge_mapped_erase(shape, page, judge.map_of_kind(kind, shape), 200);
      }
    }
  }
  for (const MapKind kind : kAllMapKinds) mapped_page(judge, kCodes[1], Shape{1, 64}, judge.random_page(Shape{1, 64}), kind);
  progress(judge, "large pages with a map");
}

// A write of which the last strip is spent by its marks alone: the others have none, and that one is erased.
void late_mapped_write(Judge& judge, const Code& code, Shape shape) {
  Bytes page = judge.random_page(shape);
  put_part(page, shape.strips - 1, Bytes(strip_length(shape), 0));
  Bytes map = no_marks(shape);
  put_part(map, shape.strips - 1, Bytes(2 * std::size_t{shape.bytes}, 0xff));
  Bytes data = judge.mapped_data(code, shape, page, map);
  data.back() = static_cast<std::uint8_t>(data.back() | 0x10U);
  judge.judge_mapped(code, shape, some_weights(judge), page, map, data);
}

// From an erase that leaves the marked cells until spent and some writes beyond, then an erase. The sum of the levels is that of the marked cells and
// the raises since the erase, whatever they cost; with steps of 1 a write's cost is its raises. Without these the map grows on the way, as cells wear
// out.
void mapped_run(Judge& judge, const Code& code, Shape shape, bool small_changes, bool steps_of_1) {
  Bytes map = judge.map_of_kind(judge.chance(1, 2) ? kFew : kOneStrip, shape);
  const Bytes erased = judge.judge_mapped_erase(shape, judge.random_page(shape), map, 50);
  Bytes page = erased;
  std::uint64_t raises = 0;
  for (unsigned beyond = 0; beyond < 4;) {
    const Bytes data = small_changes ? judge.near_data(code, shape, page) : judge.mapped_data(code, shape, page, map);
    const PageSearch least = judge.judge_mapped(code, shape, steps_of_1 ? Weights{1, 1, 1} : judge.random_weights(), page, map, data);
    const bool spent = SEGRUNOV_NUMBER(least.answer) == SEGRUNOV_SPENT;
    if (beyond > 0 || spent) ++beyond;
    page = least.page;
    raises += least.raises;
    judge.hold_ledger(erased, raises, page);
    if (steps_of_1 && !spent && SEGRUNOV_VALUE(least.answer) != least.raises) give_up("with steps of 1 the cost is not the raises");
    if (!steps_of_1 && judge.chance(1, 4)) map = judge.more_marks(map, 1, 32);
  }
  judge.judge_mapped_kept(code, shape, page, map);
  judge.judge_mapped_erase(shape, page, map, 400);
  judge.count_mapped_run(code, steps_of_1);
}

void mapped_runs(Judge& judge) {
  for (unsigned round = judge.rounds(60, 4); round > 0; --round) {
    for (const bool small_changes : {false, true}) {
      for (const bool steps_of_1 : {false, true}) {
        mapped_run(judge, kCodes[0], random_shape(judge, 16), small_changes, steps_of_1);
        mapped_run(judge, kCodes[1], random_shape(judge, 2), small_changes, steps_of_1);
      }
    }
    for (const Code& code : kCodes) late_mapped_write(judge, code, Shape{1, 64});
  }
  progress(judge, "runs with a map until spent");
}

void mapped_erases(Judge& judge) {
  for (unsigned round = judge.rounds(2000, 100); round > 0; --round) {
    const Shape shape = random_shape(judge, 128);
    const Bytes page = judge.random_page(shape);
    const Bytes map = judge.map_of_kind(random_kind(judge), shape);
    const auto tenths = static_cast<std::int16_t>(static_cast<int>(judge.below(450)) - 20);
    if (allowed_temperature(tenths)) {
      judge.judge_mapped_erase(shape, page, map, tenths);
    } else {
      judge.judge_refusal(Call{kEraseMapped, 0, shape.bytes, shape.strips, kHouse, page, Bytes(), tenths, map}, SEGRUNOV_TEMPERATURE);
    }
  }
  progress(judge, "erases with a map");
}

void mapped_cases(Judge& judge) {
  mapped_small_pages(judge);
  mapped_shapes(judge);
  mapped_large_pages(judge);
  mapped_runs(judge);
  refusals(judge, 10000, kMappedCalls);
  pairs_of_grounds(judge, kMappedCalls);
  mapped_erases(judge);
}

// ---------------------------------------------------------------- the lists

Bytes list_page(Judge& judge, ListStart start, Shape shape) {
  switch (start) {
    case kErased: return Bytes(page_length(shape), 0);
    case kHalfFull: return judge.random_bits(page_length(shape), 1, 2);
    default: return judge.random_full_cells(page_length(shape), 3, 4);
  }
}

// From 1 to 64 datas; every eighth list has 64.
std::uint32_t list_count(Judge& judge) { return judge.chance(1, 8) ? kMost : static_cast<std::uint32_t>(1 + judge.below(kMost)); }

// One list without a map and one with, of each kind of datas and from each page.
void lists_of_shape(Judge& judge, const Code& code, Shape shape) {
  for (unsigned s = 0; s < kListStarts; ++s) {
    for (unsigned d = 0; d < kListDatas; ++d) {
      const auto start = static_cast<ListStart>(s);
      const auto datas = static_cast<ListDatas>(d);
      const Bytes map = judge.map_of_kind(judge.chance(1, 2) ? kFew : random_kind(judge), shape);
      for (const Bytes* const given : {static_cast<const Bytes*>(nullptr), &map}) {
        const Weights weights = some_weights(judge);
        const Bytes page = list_page(judge, start, shape);
        judge.judge_list(code, shape, weights, page, given, list_count(judge), datas);
        judge.count_list_start(start);
      }
    }
  }
}

void lists(Judge& judge) {
  const unsigned rounds = judge.rounds(25, 5);
  for (unsigned round = 0; round < rounds; ++round) {
    for (unsigned i = 0; i < 4; ++i) lists_of_shape(judge, kCodes[0], random_shape(judge, 24));
    for (const Code& code : kCodes) lists_of_shape(judge, code, random_shape(judge, 3));
    if (round % 10 == 4) lists_of_shape(judge, kCodes[1], round % 20 == 4 ? Shape{2, 3} : Shape{3, 2});
  }
  progress(judge, "lists");
}

void list_beside_singles(Judge& judge, const Code& code, Shape shape) {
  const auto start = static_cast<ListStart>(judge.below(kListStarts));
  const Bytes map = judge.chance(1, 2) ? no_marks(shape) : judge.map_of_kind(kFew, shape);
  const Weights weights = some_weights(judge);
  const Bytes page = list_page(judge, start, shape);
  judge.judge_list_beside_singles(code, shape, weights, page, map, list_count(judge));
}

void lists_of_any_shape(Judge& judge) {
  for (const Code& code : kCodes) {
    for (const Shape shape : kLargeShapes) list_beside_singles(judge, code, shape);
    for (unsigned round = judge.rounds(50, 10); round > 0; --round) list_beside_singles(judge, code, any_shape(judge));
    judge.judge_dearest_list(code);
  }
  progress(judge, "lists of any shape");
}

void list_cases(Judge& judge) {
  lists(judge);
  lists_of_any_shape(judge);
  refusals(judge, 10000, kListCalls);
  pairs_of_grounds(judge, kListCalls);
}

// ---------------------------------------------------------------- the first writes after an erase

// The house's weights, some, and 1 or 255 in every place.
std::vector<Weighing> certain_weighings(Judge& judge) {
  std::vector<Weighing> weighings = {kPlain, judge.random_weighted()};
  for (unsigned set = 0; set < 1U << kFull; ++set) {
    Weighing weighing = {true, {1, 1, 1}};
    for (unsigned i = 0; i < kFull; ++i) {
      if (((set >> i) & 1U) == 1) weighing.weights[i] = 255;
    }
    weighings.push_back(weighing);
  }
  return weighings;
}

// The most vertices that a search has: a stage doubles the states that are reached, until they are all of them.
std::size_t search_size(const Code& code, Shape shape) {
  std::size_t reached = 1;
  std::size_t sum = 0;
  for (std::size_t t = 0; t < 8 * std::size_t{shape.bytes}; ++t) {
    reached = std::min(2 * reached, std::size_t{1} << (2 * code.memory));
    sum += reached;
  }
  return sum * shape.strips;
}

// Every weighting where the search is small, else one of them; no search where it would not end in time, which is so of
// wide pages with the long code. Gives back the greatest share of a bound, in percent.
std::uint64_t certain_shape(Judge& judge, const Code& code, Shape shape) {
  constexpr std::size_t kSmall = 60000;
  constexpr std::size_t kInTime = 600000;
  const std::size_t size = search_size(code, shape);
  std::vector<Weighing> weighings = certain_weighings(judge);
  if (size > kSmall) weighings = {weighings[judge.place_below(weighings.size())]};
  std::uint64_t share = 0;
  for (const Weighing& weighing : weighings) {
    for (unsigned d = 0; d < kCertainDatas; ++d) {
      const auto datas = static_cast<CertainDatas>(d);
      share = std::max(share, judge.judge_certain(code, shape, weighing, datas, size <= kInTime));
    }
  }
  return share;
}

// The largest is always among them, since with the long code it has no search.
void certain_shapes(Judge& judge, const Code& code) {
  std::uint64_t share = 0;
  unsigned number = 0;
  for (unsigned round = judge.times(); round > 0; --round) {
    for (const std::uint32_t bytes : std::array<std::uint32_t, 6>{1, 2, 3, 5, 8, kMost}) {
      for (const std::uint32_t strips : std::array<std::uint32_t, 5>{1, 2, 3, 7, kMost}) {
        if (!judge.due(number++) && bytes * strips < kMost * kMost) continue;
        const std::uint64_t seen = certain_shape(judge, code, Shape{bytes, strips});
        if (bytes * strips > 1) share = std::max(share, seen);
      }
    }
  }
  std::printf("certain writes, L*S above 1, any weights: code %lu at most %llu %% of the bound\n",
              static_cast<unsigned long>(code.name), static_cast<unsigned long long>(share));
}

std::string listing(const Costs& costs) {
  return std::to_string(costs[0]) + ", " + std::to_string(costs[1]) + ", " + std::to_string(costs[2]);
}

void certain_bytes(Judge& judge, const Code& code) {
  std::printf("certain writes, L = S = 1, house weights, %s datas: code %lu at most %s of %s\n", judge.whole() ? "all" : "some",
              static_cast<unsigned long>(code.name), listing(judge.judge_certain_bytes(code)).c_str(),
              listing(certain_bounds(Shape{1, 1}, kHouse)).c_str());
}

void certain_cases(Judge& judge) {
  for (const Code& code : kCodes) certain_bytes(judge, code);
  for (const Code& code : kCodes) certain_shapes(judge, code);
  progress(judge, "certain writes");
}

// ---------------------------------------------------------------- the writes in a band

// Pages that hold one value, and another that is given: at the other end, which is no neighbour; across the border of the two bytes; as far away as
// the widest band goes. And 6 on an erased page: with either code it is dearer than 5 and 7, and these cost the same.
void bands_beside_held(Judge& judge, const Code& code) {
  struct Beside {
    std::uint32_t held;
    std::uint32_t value;
  };
  const Bytes erased(page_length(kBandShape), 0);
  for (const Beside beside : {Beside{kLastValue, 0}, Beside{0, kLastValue}, Beside{255, 256}, Beside{256, 255}, Beside{1000, 1000 + kWidest},
                              Beside{1000, 1000 - kWidest}, Beside{0, 6}}) {
    const Bytes page = search_page(code, kBandShape, kHouse, erased, no_marks(kBandShape), bytes_of_value(beside.held)).page;
    judge.judge_bands(code, page, beside.value, kWidest);
  }
}

// A page of each kind, and one that is nearly spent, with values of every kind.
void band_pages(Judge& judge, const Code& code) {
  for (std::uint64_t kind = 0; kind <= Judge::kStripKinds; ++kind) {
    for (unsigned v = 0; v < kValueKinds; ++v) {
      const std::size_t length = page_length(kBandShape);
      const Bytes page = kind < Judge::kStripKinds ? judge.strip_of_kind(kind, length) : judge.random_full_cells(length, 7, 8);
      judge.judge_bands(code, page, judge.value_of_kind(static_cast<ValueKind>(v), code, page), kWidest);
    }
  }
}

// A winding's temperature goes up and down by a few units, from erased until spent and some writes beyond, then an erase. The page is carried along
// by the writes in one of the bands; the sum of its levels is the raises since the start.
void band_run(Judge& judge, const Code& code, std::uint32_t band) {
  const Bytes erased(page_length(kBandShape), 0);
  Bytes page = erased;
  std::uint64_t raises = 0;
  auto value = judge.value_of_kind(static_cast<ValueKind>(judge.below(kValueKinds)), code, page);
  for (unsigned beyond = 0; beyond < 4;) {
    value = judge.shifted(value, 12);
    const PageSearch least = judge.judge_bands(code, page, value, band);
    if (beyond > 0 || SEGRUNOV_NUMBER(least.answer) == SEGRUNOV_SPENT) ++beyond;
    page = least.page;
    raises += least.raises;
    judge.hold_ledger(erased, raises, page);
  }
  judge.count_band_run(code);
  judge.judge(Call{kErase, 0, kBandShape.bytes, kBandShape.strips, kHouse, page, Bytes(), 200}, Outcome{0, erased, Bytes()});
}

// Near what a page holds; a full one also near both ends.
void bands_of_held(Judge& judge, const Code& code) {
  for (std::uint64_t kind = 0; kind < Judge::kStripKinds; ++kind) {
    const Bytes page = judge.strip_of_kind(kind, page_length(kBandShape));
    for (unsigned i = 0; i < 10; ++i) judge.judge_band_of_held(code, page, judge.value_of_kind(kNearHeld, code, page));
  }
  const Bytes full(page_length(kBandShape), 0xff);
  for (std::uint32_t i = 0; i <= kWidest; ++i) {
    for (const std::uint32_t value : {i, kLastValue - i}) judge.judge_band_of_held(code, full, value);
  }
}

void band_cases(Judge& judge) {
  for (const Code& code : kCodes) bands_beside_held(judge, code);
  for (unsigned round = judge.rounds(50, 2); round > 0; --round) band_pages(judge, kCodes[0]);
  for (unsigned round = judge.rounds(4, 1); round > 0; --round) band_pages(judge, kCodes[1]);
  progress(judge, "bands");
  for (unsigned round = judge.rounds(10, 1); round > 0; --round) {
    for (std::uint32_t band = 0; band <= kWidest; ++band) band_run(judge, kCodes[0], band);
  }
  for (unsigned round = judge.rounds(4, 1); round > 0; --round) band_run(judge, kCodes[1], 2 * (round % 5));
  progress(judge, "runs of bands until spent");
  for (unsigned round = judge.rounds(20, 1); round > 0; --round) {
    for (const Code& code : kCodes) bands_of_held(judge, code);
  }
  progress(judge, "bands of what is held");
  refusals(judge, 10000, kBandCalls);
  pairs_of_grounds(judge, kBandCalls);
}

// ---------------------------------------------------------------- the blocks

std::uint32_t random_pages(Judge& judge, std::uint32_t most) {
  return static_cast<std::uint32_t>(kFewestPages + judge.below(most - kFewestPages + 1));
}

// Puts into a block of any content, some of them one after another.
void one_block(Judge& judge, const Code& code, Shape shape, std::uint32_t pages) {
  Bytes block = judge.random_block(shape, pages);
  judge.judge_get(code, shape, block);
  for (unsigned i = 0; i < 3; ++i) {
    judge.judge_put_of_held(code, shape, block);
    block = judge.judge_put(code, shape, block, judge.random_data_for_block(code, shape, block)).after.page;
  }
}

// From erased until spent and some puts beyond, then an erase. The sum of the block's levels is the raises since the
// start. Every page is tried at every put: also one that was spent for an earlier data, and one that was live before.
void block_run(Judge& judge, const Code& code, Shape shape, std::uint32_t pages, PutDatas datas) {
  const Bytes erased(block_length(shape, pages), 0);
  Bytes block = erased;
  std::uint64_t raises = 0;
  std::vector<bool> was_spent(pages, false);
  std::vector<bool> was_live(pages, false);
  unsigned puts = 0;
  for (unsigned beyond = 0; beyond < 4;) {
    const std::uint32_t live = live_page(block);
    const Judge::Put put = judge.judge_put(code, shape, block, judge.put_data(datas, code, shape, block));
    if (put.number < pages) {
      ++puts;
      if (was_spent[put.number]) judge.count_put_again(code);
      if (was_live[put.number] && put.number != live) judge.count_put_back(code);
      was_live[put.number] = true;
    } else if (puts < kCertainPuts) {
      give_up("one of the first four puts after an erase is spent");
    }
    for (std::uint32_t number = 0; number < pages; ++number) {
      if (!put.candidates[number].page_serves()) was_spent[number] = true;
    }
    if (beyond > 0 || put.number == pages) ++beyond;
    block = put.after.page;
    raises += put.after.raises;
    judge.hold_ledger(erased, raises, block);
  }
  judge.count_put_run(code);
  judge.judge_put_of_held(code, shape, block);
  judge.judge_block_erase(shape, block, 200);
}

// A directory that names each number, those around the last page always among them.
void every_number(Judge& judge, std::uint32_t pages) {
  const Shape shape = random_shape(judge, 4);
  const auto get = [&](std::uint32_t number) {
    const Bytes block = judge.random_block(shape, pages);
    const Bytes named = search_directory(Bytes(page_length(kDirectory), 0), number).page;
    for (const Code& code : kCodes) judge.judge_get(code, shape, with_page(shape, block, 0, named, page_of(shape, block, 0)));
  };
  judge.for_each_byte(get);
  for (const std::uint32_t number : {pages - 1, pages, pages + 1}) get(number);
}

// Blocks too wide for the search: the largest page, in few and in many, and any shape.
void block_beside_singles(Judge& judge, const Code& code, Shape shape, std::uint32_t pages) {
  Bytes block = judge.random_block(shape, pages);
  std::fill_n(block.begin(), page_length(kDirectory), std::uint8_t{0});
  for (unsigned i = 0; i < 2; ++i) {
    const Bytes data = judge.fitting_data(code, shape, page_of(shape, block, judge.place_below(pages)));
    block = judge.judge_put_beside_singles(code, shape, block, data);
  }
  judge.judge_block_erase(shape, block, 50);
}

void block_erase_at(Judge& judge, Shape shape, std::int16_t tenths) {
  const std::uint32_t pages = random_pages(judge, kMostPages);
  const Bytes block = judge.random_block(shape, pages);
  if (allowed_temperature(tenths)) {
    judge.judge_block_erase(shape, block, tenths);
  } else {
    judge.judge_block_erase_refused(shape, block, tenths);
  }
}

void block_erases(Judge& judge) {
  for (const std::int16_t tenths : std::array<std::int16_t, 10>{-32768, -400, -50, -1, 0, 49, 50, 400, 401, 32767}) {
    for (const Shape shape : {Shape{1, 1}, Shape{3, 5}}) block_erase_at(judge, shape, tenths);
  }
  for (unsigned round = judge.rounds(500, 20); round > 0; --round) {
    const Shape shape = random_shape(judge, 16);
    block_erase_at(judge, shape, static_cast<std::int16_t>(static_cast<int>(judge.below(450)) - 20));
  }
  progress(judge, "erases of blocks");
}

void block_cases(Judge& judge) {
  for (unsigned round = judge.rounds(200, 2); round > 0; --round) {
    for (std::uint32_t pages = kFewestPages; pages <= kMostPages; ++pages) one_block(judge, kCodes[0], random_shape(judge, 8), pages);
  }
  for (unsigned round = judge.rounds(400, 30); round > 0; --round) {
    const Shape shape = random_shape(judge, 2);
    one_block(judge, kCodes[1], shape, random_pages(judge, 4));
  }
  progress(judge, "blocks");
  for (unsigned round = judge.rounds(8, 2); round > 0; --round) {
    for (unsigned datas = 0; datas < kPutDatas; ++datas) {
      for (const std::uint32_t pages : {2U, 3U, 5U, 16U}) block_run(judge, kCodes[0], random_shape(judge, 6), pages, static_cast<PutDatas>(datas));
      block_run(judge, kCodes[1], Shape{1, 1 + round % 2}, 2 + datas, static_cast<PutDatas>(datas));
    }
  }
  progress(judge, "runs of puts until spent");
  for (unsigned round = judge.rounds(20, 1); round > 0; --round) {
    const Shape shape = random_shape(judge, 4);
    judge.judge_certain_puts(kCodes[0], shape, random_pages(judge, 4));
    judge.judge_certain_puts(kCodes[1], Shape{1, 1}, kFewestPages);
  }
  progress(judge, "certain puts");
  for (std::uint32_t pages = kFewestPages; pages <= kMostPages; ++pages) every_number(judge, pages);
  for (const Code& code : kCodes) {
    for (const std::uint32_t pages : {kFewestPages, kMostPages}) {
      if (judge.due(pages - kFewestPages)) block_beside_singles(judge, code, Shape{kMost, kMost}, pages);
    }
  }
  for (unsigned round = judge.rounds(4, 1); round > 0; --round) {
    for (const Code& code : kCodes) {
      const Shape shape = random_shape(judge, 256);
      block_beside_singles(judge, code, shape, random_pages(judge, kMostPages));
    }
  }
  progress(judge, "gets, and blocks not searched");
  block_erases(judge);
  refusals(judge, 6000, kBlockCalls);
  pairs_of_grounds(judge, kBlockCalls);
}

// ---------------------------------------------------------------- the verdict

// Prints a count; false if the kind was never met.
bool met(const char* kind, const char* of, std::uint64_t count) {
  std::printf("  %-29s %-17s %llu\n", kind, of, static_cast<unsigned long long>(count));
  return count > 0;
}

bool met_for_both_codes(const char* kind, const std::array<std::uint64_t, 2>& counts) {
  const bool with_short = met(kind, "code 3", counts[0]);
  const bool with_long = met(kind, "code 7", counts[1]);
  return with_short && with_long;
}

// Prints how often the pair of grounds that was met least was met.
bool every_pair_met(const Counts& counts, Function function) {
  const std::vector<std::uint32_t> order = refusals_of(function);
  std::uint64_t least = std::numeric_limits<std::uint64_t>::max();
  for (std::size_t i = 0; i < order.size(); ++i) {
    for (std::size_t j = i + 1; j < order.size(); ++j) least = std::min(least, counts.pairs[function][order[i]][order[j]]);
  }
  return met("two grounds, each pair", kFunctionName[function], least);
}

bool every_kind_met(const Counts& counts) {
  bool all = true;
  for (unsigned b = 0; b < kBases; ++b) all = met("calls judged", kBasisName[b], counts.judged[b]) && all;
  for (unsigned f = 0; f < kFunctions; ++f) all = met("calls", kFunctionName[f], counts.calls[f]) && all;
  all = met_for_both_codes("writes done", counts.done) && all;
  all = met_for_both_codes("writes spent", counts.spent) && all;
  all = met_for_both_codes("writes with a tie", counts.ties) && all;
  all = met_for_both_codes("raises of cells out of order", counts.out_of_order) && all;
  all = met_for_both_codes("raises that the strip decides", counts.strip_decides) && all;
  all = met_for_both_codes("spent after a changed strip", counts.late_spent) && all;
  all = met_for_both_codes("spent in strip 63", counts.last_spent) && all;
  all = met_for_both_codes("writes of what is held", counts.kept) && all;
  all = met_for_both_codes("pages that the weights decide", counts.decided) && all;
  all = met_for_both_codes("older pages", counts.older) && all;
  all = met_for_both_codes("older pages of several strips", counts.older_strips) && all;
  all = met_for_both_codes("older pages until spent", counts.older_runs) && all;
  all = met_for_both_codes("runs until spent", counts.plain_runs) && all;
  all = met_for_both_codes("runs of changing weights", counts.mixed_runs) && all;
  for (unsigned kind = 0; kind < kMapKinds; ++kind) all = met("maps of random pages, marked", kMapName[kind], counts.maps[kind]) && all;
  all = met_for_both_codes("mapped writes done", counts.mapped_done) && all;
  all = met_for_both_codes("mapped writes spent", counts.mapped_spent) && all;
  all = met_for_both_codes("mapped writes with a tie", counts.mapped_ties) && all;
  all = met_for_both_codes("mapped, spent after a changed", counts.mapped_late) && all;
  all = met_for_both_codes("mapped, spent in strip 63", counts.mapped_last) && all;
  all = met_for_both_codes("mapped writes of what is held", counts.mapped_kept) && all;
  all = met_for_both_codes("marked cells that show a one", counts.marked_one) && all;
  all = met_for_both_codes("pages that the marks decide", counts.marks_decide) && all;
  all = met_for_both_codes("of these with L other than S", counts.decide_strips) && all;
  all = met_for_both_codes("of these with L and S both 64", counts.decide_largest) && all;
  all = met_for_both_codes("spent by marks alone", counts.marks_spend) && all;
  all = met_for_both_codes("spent by marks, though erased", counts.erased_spent) && all;
  all = met_for_both_codes("every cell marked, done", counts.all_marked_done) && all;
  all = met_for_both_codes("every cell marked, spent", counts.all_marked_spent) && all;
  all = met_for_both_codes("dearer by more marks", counts.dearer) && all;
  all = met_for_both_codes("spent by more marks", counts.spent_by_more) && all;
  all = met_for_both_codes("mapped runs until spent", counts.mapped_runs) && all;
  all = met_for_both_codes("of these with steps of 1", counts.runs_of_1) && all;
  all = met("erases that keep marked cells", "", counts.erases_that_keep) && all;
  for (unsigned start = 0; start < kListStarts; ++start) all = met("lists by their page", kStartName[start], counts.list_starts[start]) && all;
  all = met_for_both_codes("lists written through", counts.lists_through) && all;
  all = met_for_both_codes("lists stopped after some", counts.lists_stopped) && all;
  all = met_for_both_codes("lists stopped at once", counts.lists_at_once) && all;
  all = met_for_both_codes("mapped lists written through", counts.mapped_lists_through) && all;
  all = met_for_both_codes("mapped lists stopped after", counts.mapped_lists_stopped) && all;
  all = met_for_both_codes("mapped lists stopped at once", counts.mapped_lists_at_once) && all;
  all = met_for_both_codes("stopped, a later data fits", counts.lists_later_fits) && all;
  all = met_for_both_codes("stopped in a later strip", counts.lists_later_strip) && all;
  all = met_for_both_codes("spent with a changed page", counts.lists_changed) && all;
  all = met_for_both_codes("lists of 64 written through", counts.lists_of_most) && all;
  all = met_for_both_codes("differing datas, L not S", counts.lists_differ) && all;
  all = met_for_both_codes("of any shape, written through", counts.any_through) && all;
  all = met_for_both_codes("of any shape, stopped", counts.any_stopped) && all;
  all = met_for_both_codes("dearest lists", counts.dearest) && all;
  all = met_for_both_codes("three certain writes", counts.certain) && all;
  all = met_for_both_codes("certain writes, bounds alone", counts.certain_bytes) && all;
  all = met("three certain, not searched", "code 7", counts.certain_wide) && all;
  for (unsigned band = 0; band <= kWidest; ++band) all = met("bands", std::to_string(band).c_str(), counts.bands[band]) && all;
  all = met_for_both_codes("bands done", counts.bands_done) && all;
  all = met_for_both_codes("bands spent for every value", counts.bands_spent) && all;
  all = met_for_both_codes("bands of 0 and plain writes", counts.bands_plain) && all;
  all = met_for_both_codes("bands done, the value spent", counts.bands_instead) && all;
  all = met_for_both_codes("bands cheaper than the value", counts.bands_cheaper) && all;
  all = met_for_both_codes("ties that the nearest decides", counts.bands_nearest) && all;
  all = met_for_both_codes("ties that the lower decides", counts.bands_lower) && all;
  all = met_for_both_codes("bands with a tie of pages", counts.bands_by_path) && all;
  all = met_for_both_codes("values stored 8 away", counts.bands_at_end) && all;
  all = met_for_both_codes("values across a byte's border", counts.bands_over_byte) && all;
  all = met_for_both_codes("dearer by the end at 0", counts.bands_cut_at_first) && all;
  all = met_for_both_codes("dearer by the end at 65535", counts.bands_cut_at_last) && all;
  all = met_for_both_codes("wider and cheaper", counts.bands_wider_cheaper) && all;
  all = met_for_both_codes("wider and no longer spent", counts.bands_wider_done) && all;
  all = met_for_both_codes("runs of bands until spent", counts.bands_runs) && all;
  all = met_for_both_codes("bands with what is held", counts.bands_held) && all;
  all = met_for_both_codes("bands spent on a full page", counts.bands_full_spent) && all;
  for (unsigned pages = kFewestPages; pages <= kMostPages; ++pages) {
    all = met("puts, pages", std::to_string(pages).c_str(), counts.puts[pages]) && all;
  }
  all = met_for_both_codes("puts into the live page", counts.puts_kept) && all;
  all = met_for_both_codes("puts into another page", counts.puts_changed) && all;
  all = met_for_both_codes("puts, no page named before", counts.puts_from_none) && all;
  all = met_for_both_codes("ties that the lowest decides", counts.puts_lowest) && all;
  all = met_for_both_codes("puts with a tie of pages", counts.puts_by_path) && all;
  all = met_for_both_codes("puts the directory decides", counts.puts_by_directory) && all;
  all = met_for_both_codes("puts, the live page spent", counts.puts_live_spent) && all;
  all = met_for_both_codes("puts, a number not taken", counts.puts_no_number) && all;
  all = met_for_both_codes("puts spent by pages", counts.puts_pages_spent) && all;
  all = met_for_both_codes("puts spent by the directory", counts.puts_numbers_spent) && all;
  all = met_for_both_codes("puts, L other than S", counts.puts_not_square) && all;
  all = met_for_both_codes("puts into a page once spent", counts.puts_again) && all;
  all = met_for_both_codes("puts back into a page", counts.puts_back) && all;
  all = met_for_both_codes("runs of puts until spent", counts.puts_runs) && all;
  all = met_for_both_codes("four certain puts", counts.puts_certain) && all;
  all = met_for_both_codes("puts, L and S both 64", counts.puts_largest) && all;
  all = met_for_both_codes("puts of any shape", counts.puts_any) && all;
  all = met_for_both_codes("puts of what is held", counts.puts_held) && all;
  all = met_for_both_codes("gets of the last page", counts.gets_last) && all;
  all = met_for_both_codes("gets just beyond it", counts.gets_just_beyond) && all;
  for (unsigned f = kUnmapped; f < kFunctions; ++f) all = every_pair_met(counts, static_cast<Function>(f)) && all;
  for (unsigned f = 0; f < kFunctions; ++f) {
    for (const std::uint32_t number : refusals_of(static_cast<Function>(f))) {
      const std::string kind = "refused by " + std::to_string(number);
      all = met(kind.c_str(), kFunctionName[f], counts.refused[f][number]) && all;
    }
  }
  return met("refused on several grounds", "", counts.several_grounds) && all;
}

int compare(std::uint64_t seed, Factor factor) {
  std::printf("compare: seed %llu factor %u/%u\n", static_cast<unsigned long long>(seed), factor.times, factor.part);
  check_known_cells();
  check_known_run();
  check_known_marks();
  check_known_bands();
  check_known_blocks();
  Judge judge(seed, factor);
  small_pages(judge);
  random_shapes(judge);
  large_pages(judge);
  runs(judge);
  refusals(judge, 20000, kPlainCalls);
  erases(judge);
  older_runs(judge);
  mapped_cases(judge);
  list_cases(judge);
  certain_cases(judge);
  band_cases(judge);
  block_cases(judge);
  const bool complete = every_kind_met(judge.counts());
  if (!complete) give_up("a kind was never met");
  if (judge.calls() < 20000) give_up("fewer than 20000 calls");
  const auto judged = [&](Basis basis) { return static_cast<unsigned long long>(judge.counts().judged[basis]); };
  std::printf("compare: %llu calls agree: %llu with the search, %llu with what the papers say outright, %llu with other calls (seed %llu)\n",
              static_cast<unsigned long long>(judge.calls()), judged(kBySearch), judged(kByPapers), judged(kByOwn),
              static_cast<unsigned long long>(seed));
  return 0;
}

[[noreturn]] void show_usage() {
  std::fprintf(stderr, "usage: compare [SEED [FACTOR]], FACTOR n up to 10000 or 1/n up to 1/100\n");
  std::exit(2);
}

// A whole number in decimal, at most the limit; anything else ends the program.
std::uint64_t number_from(const char* text, std::uint64_t limit) {
  std::uint64_t value = 0;
  const char* c = text;
  for (; *c >= '0' && *c <= '9' && value <= limit; ++c) value = 10 * value + static_cast<std::uint64_t>(*c - '0');
  if (c == text || *c != '\0' || value > limit) show_usage();
  return value;
}

Factor factor_from(const char* text) {
  const bool part = text[0] == '1' && text[1] == '/';
  const auto n = static_cast<unsigned>(part ? number_from(text + 2, 100) : number_from(text, 10000));
  if (n == 0) show_usage();
  return part ? Factor{1, n} : Factor{n, 1};
}

}  // namespace

int main(int argc, char** argv) {
  if (argc > 3) show_usage();
  const std::uint64_t seed = argc > 1 ? number_from(argv[1], 1000000000000ULL) : 20240117;
  return compare(seed, argc > 2 ? factor_from(argv[2]) : Factor{1, 1});
}
