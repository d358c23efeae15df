/* words.c: the words of the command line. */
#include <stdarg.h>
#include <stdio.h>
#include <stdlib.h>
#include <string.h>
#include <unistd.h>

#include "program.h"

enum { MOST = 1000000000, MOST_RATE = 1000000, MOST_CHANNELS = 1000 };

/* Writes a text in one piece, between two others. */
static void tell(const char *before, const char *format, va_list parts, const char *behind) {
  char line[1024], *text = line;
  va_list again;
  va_copy(again, parts);
  size_t start = strlen(before), room = sizeof line - start - 2;
  size_t length = (size_t)vsnprintf(line + start, room, format, parts);
  if (length >= room) {
    text = malloc(start + length + 2);
    text = text ? text : line;
    length = text == line ? room - 1 : (size_t)vsnprintf(text + start, length + 1, format, again);
  }
  va_end(again);
  memcpy(text, before, start);
  strcpy(text + start + length, behind);
  kpn_write_all(STDERR_FILENO, text, strlen(text));
  if (text != line) {
    free(text);
  }
}

void kpn_tell(const char *format, ...) {
  va_list parts;
  va_start(parts, format);
  tell("", format, parts, "");
  va_end(parts);
}

int kpn_refuse(int status, const char *format, ...) {
  va_list parts;
  va_start(parts, format);
  tell("kpn: ", format, parts, "\n");
  va_end(parts);
  return status;
}

/* Whether a word is UTF-8 text, as `kpn` has it: no longer forms, no surrogates, nothing above 10ffff. */
static bool is_text(const char *word) {
  const unsigned char *at = (const unsigned char *)word;
  while (*at) {
    static const uint32_t least[] = {0, 0x80, 0x800, 0x10000};
    unsigned more = *at < 0x80 ? 0 : *at < 0xc0 ? 4 : *at < 0xe0 ? 1 : *at < 0xf0 ? 2 : *at < 0xf8 ? 3 : 4;
    uint32_t character = more == 0 ? *at : *at & (0x3fu >> more);
    for (unsigned k = 1; k <= more && more < 4; k++) {
      more = (at[k] & 0xc0) == 0x80 ? more : 4;
      character = character << 6 | (at[k] & 0x3f);
    }
    if (more > 3 || character < least[more] || character > 0x10ffff || (character >= 0xd800 && character < 0xe000)) {
      return false;
    }
    at += more + 1;
  }
  return true;
}

bool kpn_are_texts(int count, char **words) {
  for (int k = 0; k < count; k++) {
    if (!is_text(words[k])) {
      kpn_refuse(KPN_USAGE, "usage: words of UTF-8 text");
      return false;
    }
  }
  return true;
}

static bool read_number(const char *option, const char *text, int most, uint64_t *number) {
  size_t length = strlen(text);
  *number = length > 0 && length <= 19 && strspn(text, "0123456789") == length ? strtoull(text, NULL, 10) : 0;
  if (*number < 1 || *number > (uint64_t)most) {
    kpn_refuse(KPN_USAGE, "usage: %s N, a number from 1 to %d, and not %s", option, most, text);
    return false;
  }
  return true;
}

/* Cuts NAME=FILE at its first `=`. */
static bool read_end(const char *option, const char *what, char *text, struct kpn_end *ends, size_t *count) {
  char *cut = strchr(text, '=');
  if (!cut) {
    kpn_refuse(KPN_USAGE, "usage: %s NAME=%s", option, what);
    return false;
  }
  *cut = 0;
  ends[(*count)++] = (struct kpn_end){.name = text, .file = cut + 1};
  return true;
}

static bool refuse_formats(void) {
  kpn_refuse(KPN_USAGE, "usage: --format FORMAT and --format NAME=FORMAT, once for each source and sink: "
                        KPN_FORMAT_NAMES);
  return false;
}

/* Cuts NAME=FORMAT at its first `=`. */
static bool read_format(struct kpn_words *words, char *text) {
  char *cut = strchr(text, '=');
  if (cut) {
    *cut = 0;
  }
  struct kpn_format format;
  bool is_format = kpn_format_of_name(cut ? cut + 1 : text, &format);
  words->formats[words->format_count++] = (struct kpn_format_word){cut ? text : NULL, format};
  return is_format || refuse_formats();
}

/* What an option without a value sets, or null if it is none. */
static bool *flag_of(struct kpn_words *words, bool is_stream, const char *option) {
  const struct {
    const char *name;
    bool is_of_stream, is_of_run, *flag;
  } flags[] = {{"--quiet", true, true, &words->is_quiet}, {"--certify", false, true, &words->is_certified},
               {"--strict", false, true, &words->is_strict}, {"--stats", true, false, &words->has_stats},
               {"--sound", true, false, &words->is_sound}, {"--clip", true, false, &words->clips}};
  for (size_t k = 0; k < sizeof flags / sizeof *flags; k++) {
    if (strcmp(option, flags[k].name) == 0 && (is_stream ? flags[k].is_of_stream : flags[k].is_of_run)) {
      return flags[k].flag;
    }
  }
  return NULL;
}

/* The options with a value; the first of them may be repeated. */
enum option { SOURCE, SINK, FORMAT, TAKE, COMMITS, TRACE, RATE, CHANNELS, CHECK, EVENTS, WORKERS, OPTIONS };
static const char *const OPTION_NAMES[] = {"--source", "--sink", "--format", "--take", "--max-commits", "--trace",
                                           "--rate", "--channels", "--check", "--events", "--workers"};

/* Reads the value of an option. */
static bool read_value(struct kpn_words *words, bool is_stream, enum option option, char *value) {
  const char *name = OPTION_NAMES[option];
  switch (option) {
  case SOURCE:
    return read_end(name, is_stream ? "IN" : "FILE", value, words->sources, &words->source_count);
  case SINK:
    return read_end(name, "OUT", value, words->sinks, &words->sink_count);
  case TAKE:
    words->has_take = true;
    return read_number(name, value, MOST, &words->take);
  case COMMITS:
    words->has_most_commits = true;
    return read_number(name, value, MOST, &words->most_commits);
  case RATE:
    return read_number(name, value, MOST_RATE, &words->rate);
  case CHANNELS:
    return read_number(name, value, MOST_CHANNELS, &words->channels);
  case TRACE:
    words->trace = value;
    return true;
  case FORMAT:
    return read_format(words, value);
  case EVENTS:
    return read_number(name, value, MOST, &words->events);
  case CHECK:
    words->is_checked = true;
    if (strcmp(value, "items") == 0) {
      return true;
    }
    kpn_refuse(KPN_USAGE, "usage: --check items, and not %s", value);
    return false;
  default:
    kpn_refuse(KPN_USAGE, "usage: no --workers: a compiled network runs on one thread; `kpn run` has workers");
    return false;
  }
}

static bool may_have(bool is_stream, enum option option) {
  bool is_of_stream = option == FORMAT || option == RATE || option == CHANNELS;
  return is_stream ? option != EVENTS : !is_of_stream;
}

static unsigned option_of(bool is_stream, const char *name) {
  unsigned option = 0;
  while (option < OPTIONS && (strcmp(name, OPTION_NAMES[option]) != 0 || !may_have(is_stream, option))) {
    option++;
  }
  return option;
}

/* Cuts FILE:PICKED, unless there is a file of the whole name. */
static void pick_channel(struct kpn_end *source) {
  char *cut = strrchr(source->file, ':');
  size_t length = cut ? strlen(cut + 1) : 0;
  if (length == 0 || length > 3 || strspn(cut + 1, "0123456789") != length || access(source->file, F_OK) == 0) {
    return;
  }
  *cut = 0;
  source->is_picked = true;
  source->picked = (unsigned)atoi(cut + 1);
}

bool kpn_read_words(struct kpn_words *words, bool is_stream, int count, char **given) {
  bool seen[OPTIONS] = {false};
  for (int k = 0; k < count; k++) {
    char *value = strncmp(given[k], "--", 2) == 0 ? strchr(given[k], '=') : NULL;
    bool *flag = flag_of(words, is_stream, given[k]);
    if (flag && *flag) {
      kpn_refuse(KPN_USAGE, "usage: %s once", given[k]);
      return false;
    }
    if (flag) {
      *flag = true;
      continue;
    }
    if (value) {
      *value++ = 0;
    }
    unsigned option = option_of(is_stream, given[k]);
    if (option == OPTIONS) {
      kpn_refuse(KPN_USAGE, "usage: no option %s here; --help lists them", given[k]);
      return false;
    }
    if ((!value && ++k == count) || (seen[option] && option > FORMAT)) {
      kpn_refuse(KPN_USAGE, "usage: %s once and with a value", OPTION_NAMES[option]);
      return false;
    }
    seen[option] = true;
    if (!read_value(words, is_stream, option, value ? value : given[k])) {
      return false;
    }
  }
  for (size_t k = 0; words->is_sound && k < words->source_count; k++) {
    pick_channel(&words->sources[k]);
  }
  if (words->events && !words->is_certified && !words->trace) {
    kpn_refuse(KPN_USAGE, "usage: --events N with --certify or --trace");
    return false;
  }
  return true;
}

bool kpn_find_ends(const struct kpn_plan *plan, enum kpn_kind kind, struct kpn_end *ends, size_t count) {
  for (size_t k = 0; k < count; k++) {
    size_t c = 0;
    while (c < plan->channel_count &&
           (plan->channels[c].kind != kind || strcmp(plan->channels[c].name, ends[k].name) != 0)) {
      c++;
    }
    if (c == plan->channel_count) {
      kpn_refuse(KPN_REFUSED, "22 UnknownName at %zu", k);
      return false;
    }
    ends[k].channel = (unsigned)c;
    for (size_t j = 0; j < k; j++) {
      if (ends[j].channel == c) {
        kpn_refuse(KPN_REFUSED, "23 DoubleName at %zu", k);
        return false;
      }
    }
  }
  return true;
}

static bool is_end(const struct kpn_plan *plan, const char *name) {
  for (size_t c = 0; c < plan->channel_count; c++) {
    if (plan->channels[c].kind != KPN_CHANNEL && strcmp(plan->channels[c].name, name) == 0) {
      return true;
    }
  }
  return false;
}

/* The first word for the end of this name, or for all ends if that is null. */
static const struct kpn_format_word *format_word(const struct kpn_words *words, const char *name) {
  const struct kpn_format_word *word = words->formats, *behind = word + words->format_count;
  while (word != behind && (name && word->name ? strcmp(name, word->name) != 0 : name != word->name)) {
    word++;
  }
  return word == behind ? NULL : word;
}

bool kpn_check_formats(const struct kpn_plan *plan, const struct kpn_words *words) {
  for (size_t k = 0; k < words->format_count; k++) {
    const struct kpn_format_word *word = &words->formats[k];
    if ((word->name && !is_end(plan, word->name)) || format_word(words, word->name) != word) {
      return refuse_formats();
    }
  }
  return true;
}

struct kpn_format kpn_format_of_end(const struct kpn_words *words, const char *name) {
  const struct kpn_format_word *word = format_word(words, name);
  word = word ? word : format_word(words, NULL);
  return word ? word->format : (struct kpn_format){.sample = KPN_LINES};
}

/* Whether an output is one of these files, or standard input, output or error. `-` is standard output, which a stream
   has compared with its inputs. */
static bool is_taken(const char *name, bool is_stream, const char *const *inputs, size_t count) {
  bool is_standard = is_stream && strcmp(name, "-") == 0;
  return !is_standard && (kpn_file_clashes(name, inputs, count, false) || kpn_file_is_standard(name));
}

int kpn_check_outputs(const struct kpn_words *words, bool is_stream) {
  const char **others = calloc(words->source_count + words->sink_count + 1, sizeof *others);
  size_t inputs = 0, count;
  int status = 0;
  if (!others) {
    return kpn_refuse(KPN_LACKS_MEMORY, "42 NoMemory");
  }
  for (size_t k = 0; k < words->source_count; k++) {
    if (!is_stream || strcmp(words->sources[k].file, "-") != 0) {
      others[inputs++] = words->sources[k].file;
    }
  }
  count = inputs;
  if (words->trace) {
    if ((is_stream && strcmp(words->trace, "-") == 0) || is_taken(words->trace, false, others, inputs)) {
      status = kpn_refuse(KPN_USAGE, "usage: --trace OUT, a file that is no input and no other output");
    }
    others[count++] = words->trace;
  }
  for (size_t k = 0; k < words->sink_count && status == 0; k++) {
    const char *name = words->sinks[k].file;
    if (is_taken(name, is_stream, others, inputs) ||
        kpn_file_clashes(name, others + inputs, count - inputs, true)) {
      status = kpn_refuse(KPN_USAGE, "usage: --sink NAME=OUT, a file that is no input and no other output");
    }
    others[count++] = name;
  }
  free(others);
  return status;
}
