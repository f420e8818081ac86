// Measures the time per table of reading one FlatBuffers layout tree.
//
// The program builds one buffer of exactly 4096 tables with the C++
// FlatBufferBuilder and measures, in one process and on that one buffer:
//   (a) flatbuffers::Verifier with VerifyBuffer<Layout>, and tables_verify,
//   (b) a full walk over the tree with the generated accessors, and
//       tables_walk.
//
// Usage:  bench [FILE]
// When FILE is given, the buffer is also written to that file.
//
// The checksum of a walk is a sum modulo 2^64. Each table adds its encoding,
// its row_count, the length of its metadata, the first byte of its metadata
// (when there is one), and every value in its segments.

#include <algorithm>
#include <chrono>
#include <cinttypes>
#include <cstdint>
#include <cstdio>
#include <cstdlib>
#include <cstring>
#include <vector>

#include "flatbuffers/flatbuffers.h"
#include "layout_generated.h"

// The entry points of the crate tables_c. Both repeat their work `rounds`
// times within one call.

// Verifies the bytes in each round. Returns the count of tables, or 2^32 plus
// the number of the refusal.
extern "C" uint64_t tables_verify(const uint8_t *bytes, size_t len,
                                  uint32_t rounds);
// Verifies the bytes once, and then walks all tables in each round. Returns
// the checksum described above.
extern "C" uint64_t tables_walk(const uint8_t *bytes, size_t len,
                                uint32_t rounds);

static const uint32_t kMaxDepth = 64;
static const uint32_t kTables = 4096;

// ---------------------------------------------------------------------------
// The tree that is measured.
//
// The root is chunked and has 77 scans. Each scan is a struct of 40 columns:
// 34 flat columns, 4 dict columns and 2 list columns. A dict column and a list
// column have two flat children each, so a scan has 1 + 40 + 12 = 53 tables.
// In the first 7 scans one of the flat columns is chunked in two flat pieces,
// which adds two tables. The total is 1 + 77 * 53 + 7 * 2 = 4096.
// ---------------------------------------------------------------------------

enum Encoding : uint16_t {
  kFlat = 0,
  kChunked = 1,
  kStruct = 2,
  kList = 3,
  kDict = 4
};

static const unsigned kScans = 77;
static const unsigned kChunkedScans = 7;
static const unsigned kColumns = 40;
static const uint64_t kRows = 4096;

typedef flatbuffers::Offset<Layout> Node;

class Tree {
 public:
  explicit Tree(flatbuffers::FlatBufferBuilder &builder) : builder_(builder) {}

  void Build() {
    std::vector<Node> scans;
    for (unsigned scan = 0; scan < kScans; ++scan) scans.push_back(Scan(scan));
    builder_.Finish(Inner(kChunked, kRows * kScans, scans, {}));
  }

  unsigned count() const { return count_; }

 private:
  flatbuffers::FlatBufferBuilder &builder_;
  unsigned count_ = 0;
  uint32_t next_segment_ = 0;

  // A vector without elements is left out of the table.
  flatbuffers::Offset<flatbuffers::Vector<uint8_t>> Metadata(
      const std::vector<uint8_t> &bytes) {
    if (bytes.empty()) return 0;
    return builder_.CreateVector(bytes);
  }

  Node Flat(uint64_t rows, const std::vector<uint8_t> &metadata) {
    ++count_;
    const auto bytes = Metadata(metadata);
    const uint32_t segment = next_segment_++;
    const auto segments = builder_.CreateVector(&segment, 1);
    return CreateLayout(builder_, kFlat, rows, bytes, 0, segments);
  }

  Node Inner(uint16_t encoding, uint64_t rows,
             const std::vector<Node> &children,
             const std::vector<uint8_t> &metadata) {
    ++count_;
    const auto bytes = Metadata(metadata);
    const auto nodes = builder_.CreateVector(children);
    return CreateLayout(builder_, encoding, rows, bytes, nodes, 0);
  }

  Node Column(unsigned scan, unsigned column) {
    // The columns 2 to 5 are dict columns: codes are u16, not nullable, and
    // all values are referenced.
    if (column >= 2 && column <= 5) {
      const Node values = Flat(3 + 4 * column, {});
      const Node codes = Flat(kRows, {});
      return Inner(kDict, kRows, {values, codes}, {8, 1, 16, 0, 24, 1});
    }
    // The columns 29 and 30 are list columns with offsets of type u64.
    if (column == 29 || column == 30) {
      const Node elements = Flat(kRows * (column == 29 ? 16 : 5), {});
      const Node offsets = Flat(kRows + 1, {});
      return Inner(kList, kRows, {elements, offsets}, {8, 3});
    }
    // The column 1 is chunked in the first scans.
    if (column == 1 && scan < kChunkedScans) {
      const Node first = Flat(kRows / 2, {});
      const Node second = Flat(kRows / 2, {});
      return Inner(kChunked, kRows, {first, second}, {});
    }
    // A remaining column has metadata when its number is a multiple of four.
    if (column % 4 == 0) return Flat(kRows, {10, 2, 1, 2});
    return Flat(kRows, {});
  }

  Node Scan(unsigned scan) {
    std::vector<Node> columns;
    for (unsigned column = 0; column < kColumns; ++column)
      columns.push_back(Column(scan, column));
    return Inner(kStruct, kRows, columns, {});
  }
};

// ---------------------------------------------------------------------------
// The C++ side.
// ---------------------------------------------------------------------------

static bool CppVerify(const uint8_t *bytes, size_t len, uint32_t max_tables) {
  flatbuffers::Verifier::Options options;
  options.max_depth = kMaxDepth;
  options.max_tables = max_tables;
  flatbuffers::Verifier verifier(bytes, len, options);
  return verifier.VerifyBuffer<Layout>();
}

static uint64_t CppWalk(const Layout *node) {
  uint64_t sum = node->encoding();
  sum += node->row_count();
  if (const auto *metadata = node->metadata()) {
    sum += metadata->size();
    if (metadata->size() != 0) sum += metadata->Get(0);
  }
  if (const auto *segments = node->segments()) {
    const flatbuffers::uoffset_t size = segments->size();
    for (flatbuffers::uoffset_t i = 0; i < size; ++i) sum += segments->Get(i);
  }
  if (const auto *children = node->children()) {
    const flatbuffers::uoffset_t size = children->size();
    for (flatbuffers::uoffset_t i = 0; i < size; ++i)
      sum += CppWalk(children->Get(i));
  }
  return sum;
}

static unsigned CppCount(const Layout *node) {
  unsigned count = 1;
  if (const auto *children = node->children())
    for (const Layout *child : *children) count += CppCount(child);
  return count;
}

// ---------------------------------------------------------------------------
// The measurement.
//
// A sample is the time of kRounds rounds. A call of tables_verify or
// tables_walk makes its records first, and tables_walk verifies once. Those
// costs are part of the sample, spread over its rounds.
// ---------------------------------------------------------------------------

static const uint32_t kRounds = 256;
static const unsigned kTurns = 10;
static const unsigned kSamples = 10;  // In each turn.

static void Fail(const char *message) {
  std::fprintf(stderr, "bench: %s\n", message);
  std::exit(1);
}

// Calls a function kRounds times and returns its last result. The pointer and
// the result pass through empty assembler statements, so the compiler cannot
// move the work out of the loop.
template <typename Function>
static uint64_t Repeat(const uint8_t *bytes, const Function &function) {
  uint64_t result = 0;
  for (uint32_t i = 0; i < kRounds; ++i) {
    const uint8_t *p = bytes;
    asm volatile("" : "+r"(p) : : "memory");
    result = function(p);
    asm volatile("" : "+r"(result) : : "memory");
  }
  return result;
}

class Measure {
 public:
  Measure(const char *name, uint64_t expected)
      : name_(name), expected_(expected) {}

  // Takes the time of several samples. Each has to give the expected result.
  template <typename Function>
  void Turn(const Function &sample) {
    for (unsigned i = 0; i < kSamples; ++i) {
      const auto start = std::chrono::steady_clock::now();
      const uint64_t result = sample();
      const auto end = std::chrono::steady_clock::now();
      if (result != expected_) {
        std::fprintf(stderr,
                     "bench: %s gave %" PRIu64 " and not %" PRIu64 ".\n",
                     name_, result, expected_);
        std::exit(1);
      }
      nanoseconds_.push_back(
          std::chrono::duration<double, std::nano>(end - start).count() /
          kRounds / kTables);
    }
  }

  double Best() const {
    return *std::min_element(nanoseconds_.begin(), nanoseconds_.end());
  }

  double Median() const {
    std::vector<double> sorted = nanoseconds_;
    std::sort(sorted.begin(), sorted.end());
    return sorted[sorted.size() / 2];
  }

  void Print() const {
    std::printf("%-14s best %6.2f  median %6.2f  ns per table\n", name_, Best(),
                Median());
  }

 private:
  const char *name_;
  uint64_t expected_;
  std::vector<double> nanoseconds_;  // Per table, one entry per sample.
};

static void PrintRatio(const char *name, const Measure &ours,
                       const Measure &cpp) {
  std::printf("%-14s best %6.2f  median %6.2f  times C++\n", name,
              ours.Best() / cpp.Best(), ours.Median() / cpp.Median());
}

int main(int argc, char **argv) {
  flatbuffers::FlatBufferBuilder builder;
  Tree tree(builder);
  tree.Build();
  const size_t len = builder.GetSize();

  // The buffer is copied to memory that is aligned to 64 bytes.
  uint8_t *bytes =
      static_cast<uint8_t *>(std::aligned_alloc(64, (len + 63) / 64 * 64));
  if (!bytes) Fail("There is not enough memory for the buffer.");
  std::memcpy(bytes, builder.GetBufferPointer(), len);

  if (argc > 1) {
    std::FILE *file = std::fopen(argv[1], "wb");
    if (!file) Fail("The file for the buffer cannot be opened.");
    const bool written = std::fwrite(bytes, 1, len, file) == len;
    if (std::fclose(file) != 0 || !written)
      Fail("The file for the buffer cannot be written.");
  }

  // These checks show that the buffer is what the measurement expects, and
  // that both sides find the same in it.
  if (tree.count() != kTables) Fail("The tree does not have 4096 tables.");
  if (!CppVerify(bytes, len, kTables))
    Fail("The C++ verifier refuses the buffer.");
  if (CppVerify(bytes, len, kTables - 1))
    Fail("The C++ verifier accepts more tables than the limit allows.");
  if (CppCount(GetLayout(bytes)) != kTables)
    Fail("A walk over the buffer does not find 4096 tables.");
  const uint64_t checksum = CppWalk(GetLayout(bytes));
  if (tables_verify(bytes, len, 1) != kTables)
    Fail("tables_verify does not return 4096 tables.");
  if (tables_walk(bytes, len, 1) != checksum)
    Fail("tables_walk does not return the checksum of the C++ walk.");
  if (tables_verify(bytes, len - 4, 1) < (uint64_t(1) << 32))
    Fail("tables_verify accepts a buffer whose end is cut off.");

  std::printf("buffer: %zu bytes, %u tables, checksum %" PRIu64 "\n", len,
              kTables, checksum);
  std::printf("limits: %u levels, %u tables\n", kMaxDepth, kTables);
  std::printf("samples: %u of %u rounds\n", kTurns * kSamples, kRounds);

  Measure cpp_verify("C++ verify", kTables);
  Measure our_verify("tables_verify", kTables);
  Measure cpp_walk("C++ walk", checksum);
  Measure our_walk("tables_walk", checksum);

  // The measures take turns, so a slow phase of the machine affects all.
  for (unsigned turn = 0; turn < kTurns; ++turn) {
    cpp_verify.Turn([&] {
      return Repeat(bytes, [&](const uint8_t *p) -> uint64_t {
        return CppVerify(p, len, kTables) ? kTables : 0;
      });
    });
    our_verify.Turn([&] { return tables_verify(bytes, len, kRounds); });
    cpp_walk.Turn([&] {
      return Repeat(bytes,
                    [](const uint8_t *p) { return CppWalk(GetLayout(p)); });
    });
    our_walk.Turn([&] { return tables_walk(bytes, len, kRounds); });
  }

  cpp_verify.Print();
  our_verify.Print();
  PrintRatio("verify", our_verify, cpp_verify);
  cpp_walk.Print();
  our_walk.Print();
  PrintRatio("walk", our_walk, cpp_walk);
  std::free(bytes);
  return 0;
}
