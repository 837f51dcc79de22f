/* Tests of a container's policy, over the broker as a library: what is granted, what is left to the kernel, what a race and a restart of
 * the broker come to, what is said of a policy with a fault, whether a report is one, and whether a broker of one's own mediates. */
#include <seccomp_broker.h>

#include <stdbool.h>
#include <stdio.h>
#include <stdlib.h>
#include <string.h>

/* A container's part of `lxc config show`: devices and ext4 are intercepted. */
static const char policy[] =
    "{\"config\": {\"security.syscalls.intercept.mknod\": \"true\","
    " \"security.syscalls.intercept.mount\": \"true\","
    " \"security.syscalls.intercept.mount.allowed\": \"ext4\"}}";

/* A container that makes /dev/null, and mounts an ext4 and an xfs. */
static const char script[] =
    "dir \"/dev\"\n"
    "dir \"/mnt\"\n"
    "notify mknod mount\n"
    "prog init\n"
    "poke 0x10000 \"/dev/null\\0\"\n"
    "poke 0x10100 \"/dev/sda1\\0\"\n"
    "poke 0x10200 \"/mnt\\0\"\n"
    "poke 0x10300 \"ext4\\0\"\n"
    "poke 0x10400 \"xfs\\0\"\n"
    "call mknod 0x10000 0o020666 259\n"
    "call mount 0x10100 0x10200 0x10300 0 0\n"
    "call mount 0x10100 0x10200 0x10400 0 0\n"
    "end\n"
    "schedule\n"
    "t 0 6\nw 0 9\nt 0 2\nw 0 11\nt 0 2\nw 0 10\nt 0 3\n"
    "end\n";

/* A container that writes "/zero" over "/null" while a worker has the call in hand. */
static const char race[] =
    "notify mknod\n"
    "prog rewriter\n"
    "poke 0x10000 \"/zero\\0\"\n"
    "end\n"
    "prog main\n"
    "poke 0x10000 \"/null\\0\"\n"
    "thread rewriter\n"
    "call mknod 0x10000 0o020666 259\n"
    "end\n"
    "schedule\n"
    "t 0 3\nw 0 5\nt 0.1\nw 0 4\nt 0 2\n"
    "end\n";

/* The worker of another broker, which makes /dev/null before it has asked whether the call still waits. */
static const char hasty[] =
    "dir \"/dev\"\n"
    "notify mknod\n"
    "prog init\n"
    "poke 0x10000 \"/dev/null\\0\"\n"
    "call mknod 0x10000 0o020666 259\n"
    "end\n"
    "schedule\n"
    "t 0 2\n"
    "w 0 recv\nw 0 open-mem 1\nw 0 open-base 1 -100\nw 0 read 0x10000 10\n"
    "w 0 act mknod \"/dev/null\" 0o020666 259\n"
    "end\n";

/* What a play came to. The report is a text with a zero byte behind it, and belongs to the caller. */
struct play {
  enum broker_status status;
  char *report;
  char line[256];
};

/* Plays a script under a policy: first into a small buffer, and again where the report is longer. */
static struct play play(const char *policy_text, const char *script_text) {
  struct play played = {BROKER_NO_MEMORY, NULL, ""};
  size_t size = 1024, length, line_length;
  do {
    free(played.report);
    played.report = malloc(size + 1);
    if (played.report == NULL)
      return played;
    played.status = broker_play(policy_text, strlen(policy_text), script_text, strlen(script_text), BROKER_ROOM_LIMIT,
                                played.report, size, &length, played.line, sizeof played.line - 1, &line_length);
    if (played.status == BROKER_SHORT_BUFFER)
      size = length;
  } while (played.status == BROKER_SHORT_BUFFER);
  played.report[length < size ? length : size] = '\0';
  played.line[line_length < sizeof played.line ? line_length : sizeof played.line - 1] = '\0';
  return played;
}

/* Plays it with a worker that is replaced after every so many steps: the report with the ledgers behind it, or a shorter text where
 * they don't fit. */
static struct play hand_over(const char *policy_text, const char *script_text, uint32_t every) {
  enum { SIZE = 65536 };
  struct play played = {BROKER_NO_MEMORY, malloc(SIZE + 1), ""};
  size_t length, line_length;
  if (played.report == NULL)
    return played;
  played.status = broker_handover(policy_text, strlen(policy_text), script_text, strlen(script_text), every, BROKER_ROOM_LIMIT,
                                  played.report, SIZE, &length, played.line, sizeof played.line - 1, &line_length);
  played.report[length < SIZE ? length : SIZE] = '\0';
  played.line[line_length < sizeof played.line ? line_length : sizeof played.line - 1] = '\0';
  return played;
}

/* What the check of a report came to: what is found, as far as it fits, and the line. */
struct check {
  enum broker_status status;
  char found[1024];
  char line[256];
};

/* Checks a report under a policy and a script. */
static struct check check(const char *policy_text, const char *script_text, const char *report) {
  struct check checked = {BROKER_NO_MEMORY, "", ""};
  size_t length, line_length;
  checked.status = broker_audit_check(policy_text, strlen(policy_text), script_text, strlen(script_text), report, strlen(report), BROKER_ROOM_LIMIT,
                                      checked.found, sizeof checked.found - 1, &length, checked.line, sizeof checked.line - 1, &line_length);
  return checked;
}

/* What a judge found of the workers of a script's schedule, as far as it fits, and the line. */
static struct check judge(const char *policy_text, const char *script_text) {
  struct check judged = {BROKER_NO_MEMORY, "", ""};
  size_t length, line_length;
  judged.status = broker_judge(policy_text, strlen(policy_text), script_text, strlen(script_text), BROKER_ROOM_LIMIT,
                               judged.found, sizeof judged.found - 1, &length, judged.line, sizeof judged.line - 1, &line_length);
  return judged;
}

static int failures;

/* Counts a failure where the text doesn't contain what is wanted. */
static void wants(const char *what, const char *text, const char *wanted) {
  bool found = text != NULL && strstr(text, wanted) != NULL;
  printf("%s %s\n", found ? "ok  " : "FAIL", what);
  if (!found) {
    printf("     wanted: %s\n     got:\n%s", wanted, text ? text : "(nothing)\n");
    failures++;
  }
}

static void wants_status(const char *what, enum broker_status status, const char *line, enum broker_status wanted) {
  printf("%s %s\n", status == wanted ? "ok  " : "FAIL", what);
  if (status != wanted) {
    printf("     wanted status %d, got %d: %s", wanted, status, line);
    failures++;
  }
}

/* Checks the report of a play, and then the same with an answer changed. */
static void check_report(const char *report) {
  struct check whole = check(policy, script, report);
  wants_status("the report is one", whole.status, whole.line, BROKER_DONE);
  wants("of a history that is finished", whole.found, " finished=yes\n");
  wants("and its trail names the rule", whole.found, " rule=lxd.mknod.1:3\n");

  char *changed = malloc(strlen(report) + 1);
  char *made = changed == NULL ? NULL : strstr(strcpy(changed, report), "chr 1:3 ok");
  if (made == NULL) {
    wants("the act has its line", NULL, "chr 1:3 ok");
  } else {
    memcpy(made, "chr 1:1", strlen("chr 1:1"));
    struct check other = check(policy, script, changed);
    wants_status("with another device in its act it is none", other.status, other.line, BROKER_NOT_REPORT);
    wants("and the line is named", other.line, "report: line ");
  }
  free(changed);
}

/* Restarts the broker after the effect and before its note of it: the report stays the same, and the ledger lacks the effect. */
static void restart(const char *report) {
  struct play restarted = hand_over(policy, script, 7);
  wants_status("the boot is played with a restart", restarted.status, restarted.line, BROKER_DONE);
  wants("with the same report", restarted.report, report);
  wants("and a ledger that lacks the effect", restarted.report, "\nledger 13 w0 {\"count\":6,\"own\":[");
  free(restarted.report);

  struct play never = hand_over(policy, script, 0);
  wants_status("no worker is replaced after no step", never.status, never.line, BROKER_USAGE);
  free(never.report);
}

int main(void) {
  struct play boot = play(policy, script);
  wants_status("the boot is played", boot.status, boot.line, BROKER_DONE);
  wants("/dev/null is made", boot.report, "mknod rule=lxd.mknod.1:3 verdict=grant answer=0 reply=sent\n");
  wants("ext4 is mounted", boot.report, "mount rule=lxd.mount.ext4 verdict=grant answer=0 reply=sent\n");
  wants("xfs is left to the kernel", boot.report, "mount rule=default.mount verdict=pass answer=continue reply=sent\n");
  wants("which refuses it", boot.report, "pid=1 mount EPERM\n");
  if (boot.report != NULL) {
    check_report(boot.report);
    restart(boot.report);
  }
  free(boot.report);

  struct play raced = play(policy, race);
  wants_status("the race is played", raced.status, raced.line, BROKER_DONE);
  wants("what was judged is made, and not what stands there later", raced.report, "act mknod \"/null\" chr 1:3 ok\n");
  free(raced.report);

  struct check own = judge(policy, race);
  wants_status("this project's own worker mediates", own.status, own.line, BROKER_DONE);
  wants("by so many events", own.found, "mediated events=");
  struct check other = judge(policy, hasty);
  wants_status("a hasty broker doesn't", other.status, other.line, BROKER_OTHERWISE);
  wants("and it is said which event breaks which clause", other.found, "broken 7 order unchecked\n");

  struct play typo = play("{\"config\": {\"security.syscalls.intercept.mknodd\": \"true\"}}", script);
  wants_status("a key with a typing error is refused", typo.status, typo.line, BROKER_BAD_POLICY);
  wants("and named", typo.line, "policy: unknown key at config.\"security.syscalls.intercept.mknodd\"\n");
  free(typo.report);
  return failures > 0;
}
