// What the library for C costs beside Ninja's own log; bench/clib.sh builds it over Ninja's sources, and runs it.
//   load|look|open ours|ninja LOG                  the nanoseconds of processor time that it takes, and the KiB that the process took at the most
//   record|shared|held|hundred ours|ninja LOG COUNT OUTPUTS   the nanoseconds of a record
//   find LOG ROUNDS                                the nanoseconds of a look-up, and those of one in a std::unordered_map over the same log
#include "build_log.h"
#include "eval_env.h"
#include "graph.h"
#include "nlog.h"
#include "state.h"

#include <sys/resource.h>

#include <algorithm>
#include <cstdio>
#include <cstdlib>
#include <ctime>
#include <random>
#include <string>
#include <string_view>
#include <unordered_map>
#include <vector>

namespace {

// Of processor time, which other processes don't stretch.
double seconds() {
  timespec now;
  clock_gettime(CLOCK_PROCESS_CPUTIME_ID, &now);
  return double(now.tv_sec) + double(now.tv_nsec) / 1e9;
}

double median(std::vector<double> times) {
  std::sort(times.begin(), times.end());
  return times[times.size() / 2];
}

struct Nobody : BuildLogUser {
  bool IsPathDead(StringPiece) const override { return false; }
};

// What Ninja does with a log before it builds, and at its end. Its look is its load.
bool open_by_ninja(const char *path, bool is_written) {
  std::string error;
  BuildLog log;
  if (log.Load(path, &error) != LOAD_SUCCESS) return false;
  return !is_written || log.OpenForWrite(path, Nobody(), &error);
}

bool load_by_us(const char *path) {
  nlog log = NLOG_INIT;
  int error;
  const nlog_status status = nlog_load_file(&log, path, &error);
  nlog_free(&log);
  return status == NLOG_OK;
}

bool open_by_us(const char *path, bool is_written) {
  nlog_writer *writer;
  nlog_status status = nlog_writer_new(&writer, path, 0);
  if (status == NLOG_OK) status = is_written ? nlog_writer_open(writer) : nlog_writer_open_to_read(writer);
  if (status == NLOG_OK) status = nlog_writer_close(writer);
  nlog_writer_free(&writer);
  return status == NLOG_OK;
}

int time_open(std::string_view what, bool is_ninja, const char *path) {
  rusage usage;
  const double begun = seconds();
  const bool is_done = is_ninja ? open_by_ninja(path, what == "open") : what == "load" ? load_by_us(path) : open_by_us(path, what == "open");
  const double taken = seconds() - begun;
  getrusage(RUSAGE_SELF, &usage);
  std::printf("%.0f %ld\n", taken * 1e9, usage.ru_maxrss);
  return is_done ? 0 : 1;
}

// Each record evaluates and hashes its edge's command, as Ninja does.
int time_records(std::string_view how, bool is_ninja, const char *path, int count, int outputs) {
  State state;
  Rule rule("cc");
  EvalString command;
  command.AddText("cc -c ");
  command.AddSpecial("in");
  rule.AddBinding("command", command);
  std::vector<Edge *> edges;
  for (int i = 0; i < outputs; i++) {
    char name[48];
    std::snprintf(name, sizeof name, "obj/src/module%03d/source_file_%d.o", i % 200, i);
    edges.push_back(state.AddEdge(&rule));
    state.AddOut(edges.back(), name, 0);
  }
  BuildLog log;
  std::string error;
  nlog_writer *writer = nullptr;
  nlog_status status = is_ninja ? NLOG_OK : nlog_writer_new(&writer, path, 0);
  if (!is_ninja && how != "record") status = nlog_writer_set_shared(writer, true);
  if (!is_ninja && status == NLOG_OK) status = nlog_writer_open(writer);
  if (!is_ninja && status == NLOG_OK && how == "held") status = nlog_writer_hold(writer);
  if (is_ninja && !log.OpenForWrite(path, Nobody(), &error)) return 1;
  const double begun = seconds();
  for (int i = 0; status == NLOG_OK && i < count; i++) {
    Edge *edge = edges[size_t(i % outputs)];
    if (is_ninja) {
      if (!log.RecordCommand(edge, i, i + 1, 1700000000000000000 + i)) return 1;
      continue;
    }
    if (how == "hundred" && i % 100 == 0) status = nlog_writer_hold(writer);
    const std::string text = edge->EvaluateCommand(true);
    const std::string &name = edge->outputs_[0]->path();
    const nlog_entry entry = {i, i + 1, 1700000000000000000 + i, nlog_command_hash(text.data(), text.size())};
    if (status == NLOG_OK) status = nlog_writer_record(writer, name.data(), name.size(), &entry);
    if (status == NLOG_OK && how == "hundred" && i % 100 == 99) status = nlog_writer_release(writer);
  }
  std::printf("%.0f\n", (seconds() - begun) / count * 1e9);
  nlog_writer_free(&writer);
  return status == NLOG_OK ? 0 : 1;
}

int time_find(const char *path, int rounds) {
  nlog log = NLOG_INIT;
  int error;
  if (nlog_load_file(&log, path, &error) != NLOG_OK) return 1;
  std::vector<double> finds, maps;
  size_t outputs = 0, len = 0;
  nlog_count(&log, &outputs);
  std::vector<char> name(NLOG_MAX_NAME);
  std::vector<std::string> names;
  std::unordered_map<std::string_view, nlog_entry> map;
  names.reserve(outputs);
  for (size_t i = 0; i < outputs; i++) {
    nlog_entry entry;
    nlog_at(&log, i, &entry, name.data(), name.size(), &len);
    names.emplace_back(name.data(), len);
    map.emplace(names.back(), entry);
  }
  // The names that are asked for are copies in another order, as those of a manifest are.
  std::vector<std::string> asked = names;
  std::shuffle(asked.begin(), asked.end(), std::mt19937(7));
  uint64_t sum = 0, other = 0;
  for (int i = 0; i < rounds; i++) {
    double begun = seconds();
    for (const std::string &it : asked) {
      nlog_entry entry;
      if (nlog_find(&log, it.data(), it.size(), &entry) == NLOG_OK) sum += entry.hash;
    }
    finds.push_back(seconds() - begun);
    begun = seconds();
    for (const std::string &it : asked) {
      const auto found = map.find(it);
      if (found != map.end()) other += found->second.hash;
    }
    maps.push_back(seconds() - begun);
  }
  nlog_free(&log);
  std::printf("outputs %zu nlog_find %.0f ns unordered_map %.0f ns\n", outputs, median(finds) / double(outputs) * 1e9,
              median(maps) / double(outputs) * 1e9);
  return sum == other ? 0 : 1;
}

}  // namespace

int main(int count, char **words) {
  if (count < 4) return 2;
  const std::string_view what = words[1];
  const bool is_ninja = std::string_view(words[2]) == "ninja";
  if (what == "find") return time_find(words[2], std::atoi(words[3]));
  if (count == 4) return time_open(what, is_ninja, words[3]);
  if (count == 6) return time_records(what, is_ninja, words[3], std::atoi(words[4]), std::atoi(words[5]));
  return 2;
}
