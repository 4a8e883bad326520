// Runs a program on its own standard input, and prints the greatest memory that it took, in kB, in place of what it prints. A process counts
// what its parent took before it was started, so a parent of few pages stands between a script and what it measures.
//
//   most PROGRAM [WORD..]
#include <stdio.h>
#include <sys/resource.h>
#include <sys/wait.h>
#include <unistd.h>

int main(int count, char **words) {
  struct rusage used;
  int status;

  if (count < 2)
    return 1;
  pid_t child = fork();
  if (child == 0) {
    if (freopen("/dev/null", "w", stdout))
      execvp(words[1], words + 1);
    _exit(127);
  }
  if (child < 0 || wait4(child, &status, 0, &used) != child || !WIFEXITED(status))
    return 1;
  printf("%ld\n", used.ru_maxrss);
  return 0;
}
