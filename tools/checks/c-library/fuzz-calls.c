/*
 * Calls the library on many inputs that are made at random within this one process, each twice, and tells each answer at fault.
 * tools/checks/fuzz-many builds it, and hands it good policies and scripts.
 *
 *     fuzz-calls SEED FIRST COUNT POLICY .. -- SCRIPT ..
 *
 * An input is told by the seed and its number. It is a good policy and a good script, of which one is changed: bytes, tokens, lines
 * and blocks are replaced, moved, repeated and cut; tokens become numbers at an edge, words, or names of some length; a schedule is
 * made at random. Or it is bytes at random, or a policy that is deep, or has a long number, all escapes, or keys that stand again. Or
 * it is generated calls. Counts of steps are mostly kept short, so that many inputs are tried. A third of the plays are followed by a
 * check of their report, which is whole or changed in the same ways, or of some bytes where there is none.
 *
 * An answer is at fault where it isn't a whole report, or what is found of one, with status 0, or one line of its own with another
 * status; where the second call answers otherwise; and where a check doesn't take the report of its play, refuses a changed one before
 * the change, or doesn't refuse a policy or a script as the play does. A signal ends the program, and so does a call that takes more than a second of the processor; both
 * tell the input. The program may take 1 GB of address space, so that a call that finds no memory is at fault too.
 */
#include <seccomp_broker.h>

#include <signal.h>
#include <stdbool.h>
#include <stdio.h>
#include <stdlib.h>
#include <string.h>
#include <sys/resource.h>
#include <sys/time.h>
#include <time.h>
#include <unistd.h>

enum { MOST = 1 << 20, MOST_CHECKED = 100000, OUT = 64 << 20, LINE = 2 << 20, SPANS = 1 << 16, STATUSES = 101 };

struct text {
  unsigned char *bytes;
  size_t length;
};

struct span {
  size_t start, end;
};

struct answer {
  enum broker_status status;
  size_t out_length, line_length;
  unsigned char *out, *line;
};

static void die(const char *why) {
  fprintf(stderr, "fuzz-calls: %s\n", why);
  exit(2);
}

/* ---- chance: the numbers of an input depend on the seed and its own number alone (splitmix64) */

static uint64_t chance_state;

static uint64_t chance(void) {
  uint64_t z = chance_state += 0x9e3779b97f4a7c15;
  z = (z ^ z >> 30) * 0xbf58476d1ce4e5b9;
  z = (z ^ z >> 27) * 0x94d049bb133111eb;
  return z ^ z >> 31;
}

static size_t below(size_t n) { return n == 0 ? 0 : chance() % n; }

#define ONE_OF(list) ((list)[below(sizeof(list) / sizeof *(list))])

/* ---- texts */

static unsigned char scratch[MOST];

static void set_text(struct text *text, const void *bytes, size_t length) {
  text->length = length < MOST ? length : MOST;
  memcpy(text->bytes, bytes, text->length);
}

static void add(struct text *text, const void *bytes, size_t length) {
  if (text->length + length > MOST)
    return;
  memcpy(text->bytes + text->length, bytes, length);
  text->length += length;
}

static void add_string(struct text *text, const char *string) { add(text, string, strlen(string)); }

static void add_times(struct text *text, const char *string, size_t times) {
  for (size_t at = 0; at < times; at++)
    add_string(text, string);
}

/* Puts these bytes in the place of a span. */
static void replace(struct text *text, struct span span, const unsigned char *bytes, size_t length) {
  size_t rest = text->length - span.end;
  if (span.start + length + rest > MOST)
    return;
  memmove(scratch, bytes, length);
  memmove(text->bytes + span.start + length, text->bytes + span.end, rest);
  memcpy(text->bytes + span.start, scratch, length);
  text->length = span.start + length + rest;
}

/* ---- the units of a text */

static struct span spans[SPANS];

static bool is_blank(unsigned char byte) { return byte == ' ' || byte == '\t' || byte == '\n'; }

static bool is_mark(unsigned char byte) { return byte != 0 && strchr("{}[],:", byte) != NULL; }

/* Where the token that begins there ends. */
static size_t token_end(const struct text *text, size_t at, bool is_policy) {
  const unsigned char *bytes = text->bytes;
  if (bytes[at] == '"') {
    for (at++; at < text->length && bytes[at] != '"' && bytes[at] != '\n'; at++)
      at += bytes[at] == '\\' && at + 1 < text->length;
    return at < text->length ? at + 1 : at;
  }
  if (is_policy && is_mark(bytes[at]))
    return at + 1;
  while (at < text->length && !is_blank(bytes[at]) && !(is_policy && (is_mark(bytes[at]) || bytes[at] == '"')))
    at++;
  return at;
}

static size_t find_tokens(const struct text *text, bool is_policy) {
  size_t count = 0;
  for (size_t at = 0; at < text->length && count < SPANS;) {
    if (is_blank(text->bytes[at])) {
      at++;
      continue;
    }
    size_t end = token_end(text, at, is_policy);
    spans[count++] = (struct span){at, end > at ? end : at + 1};
    at = spans[count - 1].end;
  }
  return count;
}

/* Lines; of a policy what ends with a comma too. */
static size_t find_lines(const struct text *text, bool is_policy) {
  size_t count = 0, start = 0;
  for (size_t at = 0; at < text->length && count < SPANS; at++)
    if (text->bytes[at] == '\n' || (is_policy && text->bytes[at] == ',')) {
      spans[count++] = (struct span){start, at + 1};
      start = at + 1;
    }
  return count;
}

static bool begins(const struct text *text, struct span line, const char *word) {
  size_t length = strlen(word);
  return line.end - line.start > length && memcmp(text->bytes + line.start, word, length) == 0;
}

/* Blocks of a script, from the line that opens one to its end. */
static size_t find_blocks(const struct text *text) {
  size_t lines = find_lines(text, false), count = 0;
  for (size_t at = 0; at < lines; at++) {
    if (!begins(text, spans[at], "prog ") && !begins(text, spans[at], "filter") && !begins(text, spans[at], "schedule"))
      continue;
    size_t start = spans[at].start;
    while (at + 1 < lines && !begins(text, spans[at], "end"))
      at++;
    spans[count++] = (struct span){start, spans[at].end};
  }
  return count;
}

/* Objects and lists of a policy in which no other stands. */
static size_t find_objects(const struct text *text) {
  size_t count = 0, opened = 0;
  bool is_open = false;
  for (size_t at = 0; at < text->length && count < SPANS; at++) {
    unsigned char byte = text->bytes[at];
    if (byte == '{' || byte == '[') {
      opened = at;
      is_open = true;
    } else if ((byte == '}' || byte == ']') && is_open) {
      spans[count++] = (struct span){opened, at + 1};
      is_open = false;
    }
  }
  return count;
}

/* Finds the units of one kind: bytes, tokens, lines or blocks. Of bytes there is one span a byte. */
static size_t find_units(const struct text *text, bool is_policy) {
  switch (below(4)) {
  case 0:
    for (size_t at = 0; at < text->length && at < SPANS; at++)
      spans[at] = (struct span){at, at + 1};
    return text->length < SPANS ? text->length : SPANS;
  case 1:
    return find_tokens(text, is_policy);
  case 2:
    return find_lines(text, is_policy);
  default:
    return is_policy ? find_objects(text) : find_blocks(text);
  }
}

/* ---- changes of what is good */

static const char *const edges[] = {
    "0", "1", "-1", "2", "3", "15", "16", "17", "31", "32", "63", "64", "65", "254", "255", "256", "257", "1022", "1023", "1024", "1025", "4000", "4001",
    "4094", "4095", "4096", "4097", "19999", "20000", "20001", "65535", "65536", "65537", "99999", "100000", "100001", "199999", "200000", "200001",
    "1048575", "1048576", "4161535", "4161536", "4161537", "4194303", "4194304", "4194305", "2147483647", "2147483648", "4294967295", "4294967296",
    "9223372036854775807", "9223372036854775808", "18446744073709551615", "18446744073709551616", "99999999999999999999", "100000000000000000000",
    "0x0ffff", "0x10000", "0x1ffff", "0x20000", "0xffffffffffffffff", "0x10000000000000000", "0o7777777777777777777777", "00", "-0", "0x", "1e3", "1.0"};
static const char *const script_words[] = {
    "pidmax", "pidbase", "firstid", "rlimit", "dir", "reg", "fifo", "sock", "chr", "blk", "link", "attr", "root", "broker", "map", "cgroup", "figures", "notify",
    "filter", "killable", "prog", "poke", "fill", "call", "spawn", "thread", "kill", "handler", "wait", "exit", "schedule", "t", "w", "end", "mknod", "mknodat",
    "mount", "setxattr", "openat", "close", "getpid", "sysinfo", "listener", "self", "parent", "child", "pid", "restart", "plain", "default", "ret", "ld", "ldi",
    "jeq", "jset", "ja", "neg", "#", "\"/dev\"", "\"/\"", "\"\"", "\"\\0\"", "\"\\x2e\"", "\"\\", "0.1", "0.1.1", "0.0", "0.100001", "-100", "\n", "\r\n", "\t", " \n"};
static const char *const policy_words[] = {
    "\"config\"", "\"rules\"", "\"version\"", "\"name\"", "\"call\"", "\"when\"", "\"then\"", "\"times\"", "\"path\"", "\"under\"", "\"kind\"", "\"dev\"", "\"fstype\"",
    "\"source\"", "\"deny\"", "\"inject\"", "\"at\"", "\"grant\"", "\"pass\"", "\"mknod\"", "\"openat\"", "\"mount\"", "\"EPERM\"", "\"EACCES\"", "\"chr\"", "\"fifo\"",
    "\"1:3\"", "\"true\"", "\"false\"", "\"yes\"", "\"off\"", "\"null\"", "\"/dev\"", "\"..\"", "\"lxd.a\"", "null", "true", "1e0", "-0", "1.0", "[]", "{}", "{", "}", "[",
    "]", ",", ":", "\"", "\\"};

/* A name or a text of some length, within quotes or bare. */
static size_t make_name(unsigned char *into) {
  size_t length = below(4) == 0 ? below(4200) : below(270);
  bool is_quoted = below(2) == 0, is_path = below(2) == 0;
  size_t at = 0;
  if (is_quoted)
    into[at++] = '"';
  if (is_path)
    into[at++] = '/';
  memset(into + at, 'a' + (int)below(3), length);
  at += length;
  if (is_quoted)
    into[at++] = '"';
  return at;
}

/* What is put in the place of a unit: another one, a word, a number at an edge, a name, or a byte. */
static void put_other(struct text *text, struct span span, struct span other, bool is_policy) {
  static unsigned char made[8192];
  const char *word;
  switch (below(5)) {
  case 0:
    replace(text, span, text->bytes + other.start, other.end - other.start);
    return;
  case 1:
    word = is_policy ? ONE_OF(policy_words) : ONE_OF(script_words);
    replace(text, span, (const unsigned char *)word, strlen(word));
    return;
  case 2:
    word = ONE_OF(edges);
    replace(text, span, (const unsigned char *)word, strlen(word));
    return;
  case 3: {
    size_t length = make_name(made);
    replace(text, span, made, length);
    return;
  }
  default:
    made[0] = (unsigned char)below(256);
    replace(text, span, made, 1);
  }
}

/* Repeats a unit so many times at a place. */
static void repeat(struct text *text, struct span span, size_t to, size_t times) {
  static unsigned char piece[MOST];
  size_t length = span.end - span.start;
  memcpy(piece, text->bytes + span.start, length);
  for (size_t at = 0; at < times; at++)
    replace(text, (struct span){to, to}, piece, length);
}

static void move_unit(struct text *text, struct span span, size_t to) {
  static unsigned char piece[MOST];
  size_t length = span.end - span.start;
  memcpy(piece, text->bytes + span.start, length);
  replace(text, span, piece, 0);
  replace(text, (struct span){to < text->length ? to : text->length, to < text->length ? to : text->length}, piece, length);
}

static void change_once(struct text *text, bool is_policy) {
  static const size_t times[] = {1, 2, 4};
  size_t count = find_units(text, is_policy);
  if (count == 0)
    return;
  struct span span = spans[below(count)], other = spans[below(count)];
  switch (below(8)) {
  case 0:
  case 1:
  case 2:
    put_other(text, span, other, is_policy);
    return;
  case 3:
    move_unit(text, span, other.start);
    return;
  case 4:
    repeat(text, span, other.start, ONE_OF(times));
    return;
  case 5:
  case 6:
    replace(text, span, text->bytes, 0);
    return;
  default:
    text->length = below(2) == 0 ? span.start : span.end;
  }
}

static void change(struct text *text, bool is_policy) {
  for (size_t left = 1 + below(4); left > 0; left--)
    change_once(text, is_policy);
}

/* Puts a schedule at random in the place of the script's own. */
static void schedule(struct text *script) {
  static const char *const actors[] = {"t 0", "t 0", "t 0.1", "t 0.1", "t 0.2", "t 0.1.1", "w 0", "w 0", "w 1", "w 2"};
  size_t lines = find_lines(script, false);
  for (size_t at = 0; at < lines; at++)
    if (begins(script, spans[at], "schedule")) {
      script->length = spans[at].start;
      break;
    }
  add_string(script, "schedule\n");
  for (size_t left = 5 + below(75); left > 0; left--) {
    char step[32];
    snprintf(step, sizeof step, "%s %zu\n", ONE_OF(actors), 1 + below(4));
    add_string(script, step);
  }
  add_string(script, "end\n");
}

/* Keeps the counts of steps short, mostly: of three or more digits two are left. */
static void shorten(struct text *script) {
  size_t lines = find_lines(script, false);
  for (size_t at = lines; at > 0; at--) {
    struct span line = spans[at - 1];
    if ((!begins(script, line, "t ") && !begins(script, line, "w ")) || below(64) == 0)
      continue;
    size_t end = line.end - 1, start = end;
    while (start > line.start && script->bytes[start - 1] >= '0' && script->bytes[start - 1] <= '9')
      start--;
    if (end - start > 2 && script->bytes[start - 1] == ' ')
      replace(script, (struct span){start + 2, end}, script->bytes, 0);
  }
}

/* ---- policies that are hard to read */

static void add_digits(struct text *text) {
  static const size_t lengths[] = {1, 20, 309, 10000};
  for (size_t left = ONE_OF(lengths); left > 0; left--)
    add(text, &(char){(char)('0' + below(10))}, 1);
}

static void add_number(struct text *text) {
  static const char *const middles[] = {"", ".", "e", "E-", "e+9", "."};
  if (below(2) == 0)
    add_string(text, "-");
  add_digits(text);
  const char *middle = ONE_OF(middles);
  add_string(text, middle);
  if (middle[0] != 0 && below(2) == 0)
    add_digits(text);
}

static void add_escapes(struct text *text) {
  static const char *const units[] = {"\\\"", "\\\\", "\\/", "\\b", "\\f", "\\n", "\\r", "\\t", "\\u0000", "\\u0041", "\\u00e9", "\\u20ac", "\\ud83d\\ude00",
                                      "a", ":", "/", "\\ud83d", "\\ude00", "\\uD83D\\u0041", "\\u12", "\\uzzzz", "\\x41", "\\", "\\U0001f600", "\x1f", "\x7f",
                                      "\xc3\xa9", "\xf0\x9f\x98\x80", "\xe2\x80\xa8", "\xff", "\xc3", "\xed\xa0\x80", "\xf4\x90\x80\x80"};
  size_t kinds = below(3) == 0 ? sizeof units / sizeof *units : 16;
  for (size_t left = 1 + below(40); left > 0; left--)
    add_string(text, units[below(kinds)]);
}

static void add_value(struct text *text) {
  static const char *const values[] = {"\"grant\"", "true", "null", "[]", "{}", "1", "\"y\"", "\"on\""};
  switch (below(3)) {
  case 0:
    add_number(text);
    return;
  case 1:
    add_string(text, "\"");
    add_escapes(text);
    add_string(text, "\"");
    return;
  default:
    add_string(text, ONE_OF(values));
  }
}

/* The same key again and again. */
static void add_again(struct text *text) {
  static const char *const keys[] = {"config", "rules", "version", "name", "call", "when", "then", "times", "security.syscalls.intercept.mknod", "\\u0063onfig"};
  static const size_t times[] = {2, 3, 1000};
  const char *key = ONE_OF(keys);
  size_t start = text->length;
  for (size_t left = ONE_OF(times); left > 0 && text->length < start + 100000; left--) {
    add_string(text, "\"");
    add_string(text, key);
    add_string(text, "\":");
    add_value(text);
    add_string(text, left > 1 ? "," : "");
  }
}

static void add_deep(struct text *text) {
  static const char *const forms[][3] = {{"[", "", "]"}, {"{\"config\":", "1", "}"}, {"{\"rules\":[", "", "]}"}, {"{\"a\":[", "0", "]}"}};
  static const size_t depths[] = {10, 127, 128, 129, 1000, 10000, 50000};
  const char *const *form = forms[below(4)];
  size_t depth = ONE_OF(depths), closed = below(3);
  add_times(text, form[0], depth);
  add_string(text, form[1]);
  add_times(text, form[2], closed == 0 ? depth : closed == 1 ? 0 : depth - 1 + below(3));
}

static void make_hard(struct text *policy) {
  static const char *const frames[][2] = {
      {"", ""}, {"{\"version\":", "}"}, {"{\"version\":2,\"rules\":[{\"name\":\"a\",\"call\":\"mknod\",\"then\":\"grant\",\"times\":", "}]}"},
      {"{\"rules\":[{\"name\":\"a\",\"call\":\"openat\",\"then\":{\"inject\":", "}}]}"}, {"{\"rules\":[{\"name\":", ",\"call\":\"mknod\",\"then\":\"pass\"}]}"},
      {"{\"rules\":[{\"name\":\"a\",\"call\":", ",\"then\":\"pass\"}]}"},
      {"{\"rules\":[{\"name\":\"a\",\"call\":\"mknod\",\"then\":\"grant\",\"when\":{\"path\":", "}}]}"}, {"{\"config\":{\"security.syscalls.intercept.mount.allowed\":", "}}"}};
  const char *const *frame = frames[below(8)];
  policy->length = 0;
  if (below(4) == 0) {
    add_string(policy, below(2) == 0 ? "{" : "{\"config\":{");
    add_again(policy);
    add_string(policy, below(2) == 0 ? "}" : "}}");
    return;
  }
  add_string(policy, frame[0]);
  if (below(3) == 0)
    add_deep(policy);
  else
    add_value(policy);
  add_string(policy, frame[1]);
}

static void make_bytes(struct text *text) {
  static const size_t lengths[] = {0, 1, 2, 200, 5000};
  text->length = ONE_OF(lengths);
  for (size_t at = 0; at < text->length; at++)
    text->bytes[at] = (unsigned char)chance();
}

/* ---- inputs */

static struct text policies[256], scripts[1024], policy, script, report;
static size_t policy_count, script_count;
static bool is_generated;
static uint64_t generated_from;
static uint32_t generated_count;

static void make_input(uint64_t seed, uint64_t number) {
  chance_state = seed;
  chance_state = chance() ^ number * 0xd1342543de82ef95;
  struct text good_policy = policies[below(policy_count)], good_script = scripts[below(script_count)];
  size_t kind = below(100);
  set_text(&policy, good_policy.bytes, good_policy.length);
  set_text(&script, good_script.bytes, good_script.length);
  is_generated = kind >= 98;
  generated_from = chance();
  generated_count = (uint32_t)below(42);
  if (kind < 2)
    make_bytes(&policy);
  else if (kind < 4)
    make_bytes(&script);
  else if (kind < 14)
    make_hard(&policy);
  else if (kind < 34)
    schedule(&script);
  else if (kind < 60)
    change(&policy, true);
  else
    change(&script, false);
  shorten(&script);
}

/* ---- calls */

static struct itimerval limit = {{0, 0}, {1, 0}}, unlimited;
static volatile uint64_t current;
static double longest;

enum function { PLAY, STRESS, AUDIT_CHECK };

static void call(enum function function, struct answer *answer) {
  struct timespec begun, ended;
  clock_gettime(CLOCK_PROCESS_CPUTIME_ID, &begun);
  setitimer(ITIMER_PROF, &limit, NULL);
  if (function == STRESS)
    answer->status = broker_stress(generated_from, generated_count, BROKER_ROOM_LIMIT, answer->out, OUT, &answer->out_length, answer->line, LINE, &answer->line_length);
  else if (function == PLAY)
    answer->status = broker_play(policy.bytes, policy.length, script.bytes, script.length, BROKER_ROOM_LIMIT, answer->out, OUT, &answer->out_length, answer->line,
                                 LINE, &answer->line_length);
  else
    answer->status = broker_audit_check(policy.bytes, policy.length, script.bytes, script.length, report.bytes, report.length, BROKER_ROOM_LIMIT, answer->out, OUT,
                                        &answer->out_length, answer->line, LINE, &answer->line_length);
  setitimer(ITIMER_PROF, &unlimited, NULL);
  clock_gettime(CLOCK_PROCESS_CPUTIME_ID, &ended);
  double took = (double)(ended.tv_sec - begun.tv_sec) + (double)(ended.tv_nsec - begun.tv_nsec) / 1e9;
  if (took > longest)
    longest = took;
}

/* Where a text goes on behind this front, or NULL. */
static const char *behind(const char *text, const char *front) { return strncmp(text, front, strlen(front)) == 0 ? text + strlen(front) : NULL; }

/* Whether a line is one of printable bytes with one end. */
static bool is_line(const unsigned char *line, size_t length) {
  if (length == 0 || line[length - 1] != '\n')
    return false;
  for (size_t at = 0; at + 1 < length; at++)
    if (line[at] < 0x20 || line[at] > 0x7e)
      return false;
  return true;
}

static bool is_line_of(enum function function, enum broker_status status, char *line, size_t length) {
  static const char *const fronts[][5] = {
      [BROKER_USAGE] = {"usage: "},
      [BROKER_TOO_LONG] = {"too long: policy\n", "too long: script\n"},
      [BROKER_BAD_POLICY] = {"policy: not JSON\n", "policy: too many rules\n", "policy: unknown key at ", "policy: bad value at "},
      [BROKER_BAD_SCRIPT] = {"script: line ", "script: requests in the schedule\n"},
  };
  if (!is_line((unsigned char *)line, length))
    return false;
  line[length] = 0;
  if (function == AUDIT_CHECK && status == BROKER_NOT_REPORT)
    return behind(line, "report: line ") != NULL;
  if (status > BROKER_BAD_SCRIPT)
    return false;
  for (size_t at = 0; at < 5 && fronts[status][at] != NULL; at++)
    if (behind(line, fronts[status][at]) != NULL)
      return true;
  return false;
}

/* Goes past a part of a report: its head with a count, and as many lines. */
static const char *past_part(const char *text, const char *name) {
  const char *at = behind(text, name);
  char *end;
  if (at == NULL || *at != ' ')
    return NULL;
  unsigned long lines = strtoul(at + 1, &end, 10);
  if (end == at + 1 || *end != '\n')
    return NULL;
  for (at = end + 1; lines > 0; lines--) {
    const char *next = strchr(at, '\n');
    if (next == NULL)
      return NULL;
    at = next + 1;
  }
  return at;
}

/* Whether the printed text is what is found of a report: a line with its events, and lines of a trail. */
static bool is_found(const char *out) {
  const char *at = behind(out, "yes events=");
  for (at = at == NULL ? NULL : strchr(at, '\n'); at != NULL && at[1] != 0; at = strchr(at, '\n'))
    at = behind(at + 1, "trail ");
  return at != NULL;
}

/* Whether the printed text is whole: the four parts, each with as many lines as it says. */
static bool is_report(enum function function, const char *out, size_t length) {
  const char *at = out;
  if (function == PLAY) {
    at = past_part(at, "journal");
    at = at == NULL ? NULL : past_part(at, "calls");
    at = at == NULL ? NULL : past_part(at, "audit");
  }
  if (at == NULL || behind(at, "summary events=") == NULL)
    return false;
  const char *end = strchr(at, '\n');
  return end != NULL && end == out + length - 1;
}

/* What is wrong with an answer by itself. */
static const char *fault_of(enum function function, const struct answer *answer) {
  if (answer->status == BROKER_SHORT_BUFFER)
    return answer->out_length > OUT && answer->line_length == 0 ? NULL : "a short buffer";
  if (answer->out_length >= OUT || answer->line_length >= LINE)
    return "a text that doesn't fit";
  if (answer->status != BROKER_DONE)
    return answer->out_length == 0 && is_line_of(function, answer->status, (char *)answer->line, answer->line_length) ? NULL : "a status without its line";
  answer->out[answer->out_length] = 0;
  const char *out = (const char *)answer->out;
  bool is_whole = function == AUDIT_CHECK ? is_found(out) : is_report(function, out, answer->out_length);
  return is_whole && answer->line_length == 0 ? NULL : "status 0 without a whole report";
}

static bool are_same(const struct answer *one, const struct answer *other) {
  size_t front = one->out_length < OUT ? one->out_length : OUT;
  return one->status == other->status && one->out_length == other->out_length && one->line_length == other->line_length &&
         memcmp(one->out, other->out, front) == 0 && memcmp(one->line, other->line, one->line_length) == 0;
}

/* Makes a call twice, and says what is wrong with the first answer or differs in the second. */
static const char *call_twice(enum function function, struct answer *one, struct answer *other) {
  call(function, one);
  call(function, other);
  return are_same(one, other) ? fault_of(function, one) : "it answered otherwise the second time";
}

/* ---- checks */

static struct text played;

/* Takes the report of a play, whole or changed, or some bytes where there is none, and says whether it is checked. */
static bool make_report(const struct answer *play) {
  if (is_generated || play->out_length > MOST_CHECKED || below(3) > 0)
    return false;
  set_text(&played, play->out, play->out_length);
  set_text(&report, play->out, play->out_length);
  if (play->status != BROKER_DONE)
    add_string(&report, "journal 1\n");
  else if (below(8) > 0)
    change(&report, false);
  return true;
}

/* The number of the line in which two texts differ first, from 1. */
static size_t first_difference(const struct text *one, const struct text *other) {
  size_t number = 1;
  for (size_t at = 0; at < one->length && at < other->length && one->bytes[at] == other->bytes[at]; at++)
    number += one->bytes[at] == '\n';
  return number;
}

/* What is wrong with the answer of a check that is good by itself, after that of the play of its policy and script. */
static const char *check_fault(const struct answer *play, const struct answer *check) {
  if (play->status != BROKER_DONE)
    return are_same(play, check) ? NULL : "a check of what isn't played";
  if (check->status == BROKER_DONE)
    return NULL;
  if (check->status != BROKER_NOT_REPORT)
    return "a check of what is played";
  if (report.length == played.length && memcmp(report.bytes, played.bytes, played.length) == 0)
    return "the report of a play was refused";
  size_t number = strtoul((const char *)check->line + strlen("report: line "), NULL, 10);
  return number >= first_difference(&played, &report) ? NULL : "a report was refused before its change";
}

/* ---- the program */

static void tell_signal(int number) {
  char text[96];
  int length = snprintf(text, sizeof text, "fuzz-calls: input %llu: signal %d\n", (unsigned long long)current, number);
  if (write(2, text, (size_t)length) < 0)
    _exit(3);
  _exit(2);
}

static struct text read_text(const char *name) {
  static unsigned char bytes[MOST];
  FILE *file = fopen(name, "rb");
  if (file == NULL)
    die("a file can't be opened");
  struct text text = {NULL, fread(bytes, 1, sizeof bytes, file)};
  fclose(file);
  text.bytes = malloc(text.length + 1);
  if (text.bytes == NULL)
    die("no memory");
  memcpy(text.bytes, bytes, text.length);
  return text;
}

static void read_texts(int count, char **words) {
  bool are_scripts = false;
  for (int at = 0; at < count; at++) {
    if (strcmp(words[at], "--") == 0)
      are_scripts = true;
    else if (are_scripts && script_count < 1024)
      scripts[script_count++] = read_text(words[at]);
    else if (!are_scripts && policy_count < 256)
      policies[policy_count++] = read_text(words[at]);
  }
  if (policy_count == 0 || script_count == 0)
    die("SEED FIRST COUNT POLICY .. -- SCRIPT ..");
}

static void *room(size_t size) {
  void *bytes = malloc(size);
  if (bytes == NULL)
    die("no memory");
  return bytes;
}

/* Counts the status of an input or a check, and tells what is wrong with it. */
static bool is_at_fault(size_t statuses[STATUSES], const char *what, const char *wrong, const struct answer *answer) {
  size_t status = (size_t)answer->status;
  statuses[status < STATUSES ? status : STATUSES - 1]++;
  if (wrong != NULL)
    printf("fuzz-calls: %s %llu: %s: status %d, %zu bytes, a line of %zu\n", what, (unsigned long long)current, wrong, (int)answer->status, answer->out_length,
           answer->line_length);
  return wrong != NULL;
}

static void print_statuses(const size_t statuses[STATUSES]) {
  for (size_t at = 0; at < STATUSES; at++)
    if (statuses[at] > 0)
      printf(" %zu with status %zu,", statuses[at], at);
}

int main(int count, char **words) {
  static const int signals[] = {SIGSEGV, SIGBUS, SIGILL, SIGFPE, SIGABRT, SIGTRAP, SIGPROF};
  static size_t statuses[STATUSES], checked[STATUSES];
  if (count < 7)
    die("SEED FIRST COUNT POLICY .. -- SCRIPT ..");
  uint64_t seed = strtoull(words[1], NULL, 10), first = strtoull(words[2], NULL, 10), inputs = strtoull(words[3], NULL, 10), faults = 0;
  setrlimit(RLIMIT_AS, &(struct rlimit){1 << 30, 1 << 30});
  for (size_t at = 0; at < sizeof signals / sizeof *signals; at++)
    signal(signals[at], tell_signal);
  read_texts(count - 4, words + 4);
  policy.bytes = room(MOST);
  script.bytes = room(MOST);
  report.bytes = room(MOST);
  played.bytes = room(MOST);
  struct answer play = {.out = room(OUT + 1), .line = room(LINE + 1)}, check = {.out = room(OUT + 1), .line = room(LINE + 1)},
                other = {.out = room(OUT + 1), .line = room(LINE + 1)};
  for (current = first; current < first + inputs; current++) {
    make_input(seed, current);
    const char *wrong = call_twice(is_generated ? STRESS : PLAY, &play, &other);
    faults += is_at_fault(statuses, "input", wrong, &play);
    if (wrong != NULL || !make_report(&play))
      continue;
    wrong = call_twice(AUDIT_CHECK, &check, &other);
    faults += is_at_fault(checked, "the check of input", wrong != NULL ? wrong : check_fault(&play, &check), &check);
  }
  struct rusage usage;
  getrusage(RUSAGE_SELF, &usage);
  printf("%llu inputs of seed %llu from %llu on, each called twice:", (unsigned long long)inputs, (unsigned long long)seed, (unsigned long long)first);
  print_statuses(statuses);
  printf(" and of reports that were checked");
  print_statuses(checked);
  printf(" %llu at fault; %ld s of the processor, the longest call %.2f s, at most %ld MB resident\n", (unsigned long long)faults,
         (long)usage.ru_utime.tv_sec + (long)usage.ru_stime.tv_sec, longest, usage.ru_maxrss / 1024);
  return faults > 0;
}
