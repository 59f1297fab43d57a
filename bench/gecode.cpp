// Settling by Gecode, to be measured beside ours: `gecode SHEET RUNS` prints the median microseconds of posting a sheet's groups and lines and of status(), and whether it failed.
#include <algorithm>
#include <chrono>
#include <cstdio>
#include <cstdlib>
#include <fstream>
#include <iostream>
#include <sstream>
#include <string>
#include <vector>
#include <gecode/set.hh>

using namespace Gecode;

struct Entry {
  int low, high;
  std::vector<int> fixed, possible;
};

struct Sheet {
  int n = 0;
  std::vector<Entry> groups;
  std::vector<std::vector<int>> lines; // a code, then its groups from 0
};

// A sheet that our reader accepts, its marks all written.
Sheet read(const char* path) {
  std::ifstream file(path);
  std::string text;
  Sheet sheet;
  while (std::getline(file, text)) {
    std::istringstream fields(text);
    int kind, number;
    fields >> kind;
    if (kind == 1) {
      fields >> sheet.n;
    } else if (kind == 2) {
      Entry entry;
      fields >> number >> entry.low >> entry.high;
      for (int entrant = 1, mark; fields >> mark; entrant++) {
        if (mark >= 1) entry.possible.push_back(entrant);
        if (mark == 2) entry.fixed.push_back(entrant);
      }
      sheet.groups.push_back(entry);
    } else {
      std::vector<int> line;
      fields >> number;
      line.push_back(number);
      if (number == 6) fields >> number;
      while (fields >> number) line.push_back(number - 1);
      sheet.lines.push_back(line);
    }
  }
  return sheet;
}

IntSet set_of(const std::vector<int>& entrants) {
  return entrants.empty() ? IntSet::empty : IntSet(entrants.data(), static_cast<int>(entrants.size()));
}

class Table : public Space {
public:
  SetVarArray groups;

  explicit Table(const Sheet& sheet) : groups(*this, static_cast<int>(sheet.groups.size())) {
    for (int g = 0; g < groups.size(); g++) {
      const Entry& entry = sheet.groups[g];
      groups[g] = SetVar(*this, set_of(entry.fixed), set_of(entry.possible), 0, static_cast<unsigned>(sheet.n));
      cardinality(*this, groups[g], static_cast<unsigned>(entry.low), static_cast<unsigned>(entry.high));
    }
    for (const std::vector<int>& line : sheet.lines) {
      SetVar h = groups[line[1]], f = groups[line[2]];
      switch (line[0]) {
        case 1: rel(*this, h, SRT_EQ, f); break;
        case 2: rel(*this, h, SRT_SUB, f); break;
        case 3: rel(*this, f, SOT_INTER, groups[line[3]], SRT_EQ, h); break;
        case 4: rel(*this, f, SOT_UNION, groups[line[3]], SRT_EQ, h); break;
        case 5: rel(*this, f, SOT_MINUS, groups[line[3]], SRT_EQ, h); break;
        case 6: {
          SetVarArgs members;
          for (size_t i = 2; i < line.size(); i++) members << groups[line[i]];
          rel(*this, SOT_UNION, members, h);
          break;
        }
        default: rel(*this, h, SRT_NQ, f);
      }
    }
  }

  Table(Table& other) : Space(other) { groups.update(*this, other.groups); }
  Space* copy() override { return new Table(*this); }
};

int main(int count, char** words) {
  if (count != 3) return 2;
  Sheet sheet = read(words[1]);
  std::vector<double> times;
  bool failed = false;
  for (int run = 0; run < std::atoi(words[2]); run++) {
    auto start = std::chrono::steady_clock::now();
    Table table(sheet);
    failed = table.status() == SS_FAILED;
    times.push_back(std::chrono::duration<double, std::micro>(std::chrono::steady_clock::now() - start).count());
  }
  std::sort(times.begin(), times.end());
  std::printf("%.1f %s\n", times[times.size() / 2], failed ? "failed" : "settled");
}
