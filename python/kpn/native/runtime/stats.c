/* stats.c: the tables of --stats, as `kpn stream` writes them. */
#include <stdio.h>
#include <string.h>
#include <unistd.h>

#include "stream.h"

enum { MOST_CELL = 256, MOST_COLUMNS = 5 };

/* Writes the cell of a table. The first row has the headings. */
typedef void cell_of(const struct stream *stream, size_t row, unsigned column, char *cell);

static void channel_cell(const struct stream *stream, size_t row, unsigned column, char *cell) {
  static const char *const headings[] = {"channel", "put", "read", "unread", "most"};
  const struct kpn_network *network = &stream->run->network;
  if (row == 0 || column == 0) {
    snprintf(cell, MOST_CELL, "%s", row == 0 ? headings[column] : network->plan->channels[row - 1].name);
    return;
  }
  const struct kpn_channel *channel = &network->channels[row - 1];
  uint64_t inside = kpn_carried_inside(network, row - 1);
  const uint64_t counts[] = {0, channel->put + inside, channel->got + inside, channel->put - channel->got,
                             stream->most[row - 1]};
  snprintf(cell, MOST_CELL, "%llu", (unsigned long long)counts[column]);
}

static void process_cell(const struct stream *stream, size_t row, unsigned column, char *cell) {
  static const char *const headings[] = {"process", "end"};
  const struct kpn_network *network = &stream->run->network;
  if (row == 0 || column == 0) {
    snprintf(cell, MOST_CELL, "%s", row == 0 ? headings[column] : network->plan->processes[row - 1].name);
    return;
  }
  const struct kpn_process *process = &network->processes[row - 1];
  if (process->being == KPN_OVER) {
    snprintf(cell, MOST_CELL, "%s", kpn_end_word((enum kpn_stop)process->why));
  } else if (process->being == KPN_STALLED || process->being == KPN_WAITING) {
    snprintf(cell, MOST_CELL, "waits %s%s", network->plan->channels[process->channel].name,
             process->why == KPN_FULL ? " full" : "");
  } else {
    snprintf(cell, MOST_CELL, "-");
  }
}

/* Writes a table: the first column begins where its cells do, the others end where theirs do. */
static void tell_table(const struct stream *stream, cell_of *cell_of, size_t rows, unsigned columns) {
  char cell[MOST_CELL], line[MOST_COLUMNS * (MOST_CELL + 2)];
  int widths[MOST_COLUMNS] = {0};
  for (size_t row = 0; row <= rows; row++) {
    for (unsigned column = 0; column < columns; column++) {
      cell_of(stream, row, column, cell);
      int width = (int)strlen(cell);
      widths[column] = width > widths[column] ? width : widths[column];
    }
  }
  for (size_t row = 0; row <= rows; row++) {
    char *end = line;
    for (unsigned column = 0; column < columns; column++) {
      cell_of(stream, row, column, cell);
      end += sprintf(end, column == 0 ? "%-*s" : "  %*s", widths[column], cell);
    }
    kpn_tell("%s\n", line);
  }
}

void kpn_note_most(struct stream *stream) {
  const struct kpn_network *network = &stream->run->network;
  for (unsigned c = 0; c < network->plan->channel_count; c++) {
    const struct kpn_channel *channel = &network->channels[c];
    bool is_sink = channel->reader == KPN_OUTSIDE; /* whose items are taken one by one, as they come */
    bool is_read = is_sink ? !channel->is_shut : network->processes[channel->reader].being != KPN_OVER;
    size_t unread = is_sink ? channel->put > 0 : channel->put - channel->got;
    if (is_read && unread > stream->most[c]) {
      stream->most[c] = unread;
    }
  }
}

/* Notes the most items that lie in channels inside regions, if any made a period. */
static void note_inside(struct stream *stream) {
  const struct kpn_network *network = &stream->run->network;
  for (size_t r = 0; r < network->plan->region_count; r++) {
    const struct kpn_region_plan *plan = &network->plan->regions[r];
    for (size_t k = 0; k < plan->inside_count && network->regions[r].periods > 0; k++) {
      size_t *most = &stream->most[plan->inside[k].channel];
      *most = plan->inside[k].most > *most ? plan->inside[k].most : *most;
    }
  }
}

void kpn_tell_stats(struct stream *stream) {
  const struct kpn_plan *plan = stream->run->network.plan;
  note_inside(stream);
  if (!stream->run->words.is_quiet) {
    kpn_tell("\n");
  }
  tell_table(stream, channel_cell, plan->channel_count, 5);
  kpn_tell("\n");
  tell_table(stream, process_cell, plan->process_count, 2);
}
