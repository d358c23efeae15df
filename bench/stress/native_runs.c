/* Makes the runs of a network that the file `jobs` tells, one on each line: the number of a schedule, a name, and the
   words of a compiled program. Reports and what is told go to NAME.report and NAME.told, and the statuses to `statuses`.

   bench/stress/native.py calls it. It compiles one C for each schedule, and the last has the array of their plans. */
#include <fcntl.h>
#include <stdio.h>
#include <stdlib.h>
#include <string.h>
#include <unistd.h>

struct kpn_plan;
extern int kpn_main(const struct kpn_plan *plan, const char *program, int count, char **words);
extern const struct kpn_plan *const kpn_plans[];

enum { MOST_WORDS = 1024 };

static int redirect(int end, const char *name, const char *kind) {
  char file[256];
  snprintf(file, sizeof file, "%s.%s", name, kind);
  int to = open(file, O_WRONLY | O_CREAT | O_TRUNC, 0600);
  return to < 0 || dup2(to, end) < 0 || close(to) < 0;
}

int main(void) {
  static char line[1 << 16], *words[MOST_WORDS];
  FILE *jobs = fopen("jobs", "r"), *statuses = fopen("statuses", "w");
  while (jobs && statuses && fgets(line, sizeof line, jobs)) {
    int count = 0;
    for (char *word = strtok(line, " \n"); word && count < MOST_WORDS; word = strtok(NULL, " \n")) {
      words[count++] = word;
    }
    if (count < 3 || redirect(STDOUT_FILENO, words[1], "report") || redirect(STDERR_FILENO, words[1], "told")) return 1;
    int status = kpn_main(kpn_plans[atoi(words[0])], "kpn", count - 1, words + 1);
    fprintf(statuses, "%d\n", status);
    if (fflush(statuses)) return 1;
  }
  return !jobs || !statuses || fclose(jobs) || fclose(statuses);
}
