/* The lines of a log that are no entries, as `nlog damage` tells them: a walk over the bytes, line by line, by nlog_read_line, which is proved.
 * This file is tested (tests/clib.py), and not proved. */
#include "nlog.h"

#include <string.h>

/* The longest line that is looked at, without its newline. */
#define MAX_LINE 262143

static bool is_entry(uint32_t version, const char *line, size_t len) {
  nlog_entry entry;
  size_t name_len;
  return nlog_read_line(version, line, len, &entry, NULL, 0, &name_len) != NLOG_NOT_FOUND;
}

/* Finds the output of the entry that the last five fields of a line are, of the first of them the last byte alone: a line that was written after
 * a torn one begins somewhere in that field. */
static void find_output(uint32_t version, const char *bytes, nlog_damage *damage) {
  const char *line = bytes + damage->from;
  size_t tabs[4], found = 0, at = damage->len;
  while (at > 0 && found < 4) {
    at--;
    if (line[at] == '\t') tabs[found++] = at;
  }
  if (found < 4 || at == 0 || !is_entry(version, line + at - 1, damage->len - (at - 1))) return;
  damage->output_from = damage->from + tabs[1] + 1;
  damage->output_len = tabs[0] - (tabs[1] + 1);
}

/* Finds the output that plain Ninja takes a line for an entry of: what stands between its third tab and its fourth. */
static void find_first(const char *bytes, nlog_damage *damage) {
  const char *at = bytes + damage->from, *end = at + damage->len, *name = at;
  size_t tabs;
  for (tabs = 0; tabs < 4; tabs++) {
    const char *tab = (const char *)memchr(at, '\t', (size_t)(end - at));
    if (tab == NULL) return;
    name = at;
    at = tab + 1;
  }
  damage->first_from = (size_t)(name - bytes);
  damage->first_len = (size_t)(at - 1 - name);
}

nlog_status nlog_next_damage(uint32_t version, const void *bytes, size_t len, nlog_damage *damage) {
  const char *text = (const char *)bytes;
  nlog_damage found = *damage;
  size_t at = 0;
  if (found.number > 0) {
    if (found.from > len || found.len >= len - found.from) return NLOG_NOT_FOUND;
    at = found.from + found.len + 1;
  }
  while (at < len) {
    const char *newline = (const char *)memchr(text + at, '\n', len - at);
    found.number++;
    found.from = at;
    found.len = newline == NULL ? len - at : (size_t)(newline - text) - at;
    found.kind = newline == NULL ? NLOG_TORN : found.len > MAX_LINE ? NLOG_LONG : NLOG_SKIPPED;
    found.output_from = found.output_len = 0;
    found.first_from = found.first_len = 0;
    at += found.len + 1;
    if (newline != NULL && found.number == 1) continue;
    if (found.kind == NLOG_SKIPPED && is_entry(version, text + found.from, found.len)) continue;
    if (found.len <= MAX_LINE) {
      find_output(version, text, &found);
      find_first(text, &found);
    }
    *damage = found;
    return NLOG_OK;
  }
  return NLOG_NOT_FOUND;
}
