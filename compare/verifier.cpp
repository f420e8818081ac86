// Runs the cases of crates/tables_cases through the Verifier of the C++ FlatBuffers library, and prints each case that one side
// accepts and the other refuses. Cases that only our own bounds decide (6, 7 and 13) are passed over.
//
// Usage:  verifier < crates/tables_cases/stdin
#include <cstdint>
#include <cstdlib>
#include <iostream>
#include <sstream>
#include <string>
#include <vector>

#include "flatbuffers/flatbuffers.h"
#include "layout_generated.h"

// Bytes in hex, in runs parted by dots; a run BB*N is the byte BB, N times.
static std::vector<uint8_t> Bytes(const std::string &text) {
  std::vector<uint8_t> bytes;
  std::stringstream runs(text);
  std::string run;
  while (std::getline(runs, run, '.')) {
    const size_t star = run.find('*');
    if (star != std::string::npos) {
      bytes.insert(bytes.end(), std::strtoul(run.c_str() + star + 1, nullptr, 10),
                   static_cast<uint8_t>(std::strtoul(run.substr(0, star).c_str(), nullptr, 16)));
      continue;
    }
    for (size_t i = 0; i + 1 < run.size(); i += 2)
      bytes.push_back(static_cast<uint8_t>(std::strtoul(run.substr(i, 2).c_str(), nullptr, 16)));
  }
  return bytes;
}

int main() {
  std::string line;
  unsigned cases = 0, differ = 0;
  while (std::getline(std::cin, line)) {
    if (line.empty() || line[0] == '#') continue;
    std::stringstream words(line);
    std::string name, expected, hex;
    uint32_t levels = 0, tables = 0, records = 0;
    words >> name >> levels >> tables >> records >> expected >> hex;
    if (expected == "refused:6;" || expected == "refused:7;" || expected == "refused:13;") continue;
    const bool ours = expected.compare(0, 9, "accepted:") == 0;
    // The bytes are copied to memory that is aligned for the largest number.
    const std::vector<uint8_t> bytes = Bytes(hex);
    std::vector<uint64_t> aligned(bytes.size() / 8 + 1);
    std::memcpy(aligned.data(), bytes.data(), bytes.size());
    flatbuffers::Verifier::Options options;
    options.max_depth = levels;
    options.max_tables = tables;
    flatbuffers::Verifier verifier(reinterpret_cast<const uint8_t *>(aligned.data()), bytes.size(), options);
    const bool theirs = verifier.VerifyBuffer<Layout>(nullptr);
    ++cases;
    if (ours == theirs) continue;
    ++differ;
    std::cout << name << ": " << expected.substr(0, expected.find(';')) << " here, " << (theirs ? "accepted" : "refused") << " by C++\n";
  }
  std::cout << cases << " cases, " << differ << " differ\n";
  return 0;
}
