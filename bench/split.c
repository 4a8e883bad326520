// Reads a journal from standard input line by line, splits each line at its blanks, turns the words that begin with a digit into integers,
// and prints the sum of them: what a plain loop takes that only reads and splits what `rmi replay` reads.
//
//   split < JOURNAL
#include <ctype.h>
#include <stdint.h>
#include <stdio.h>
#include <stdlib.h>
#include <string.h>

int main(void) {
  char *line = NULL;
  size_t room = 0;
  uint64_t sum = 0;

  while (getline(&line, &room, stdin) != -1) {
    char *rest;
    for (char *word = strtok_r(line, " \n", &rest); word != NULL; word = strtok_r(NULL, " \n", &rest))
      if (isdigit((unsigned char)word[0]))
        sum += strtoull(word, NULL, 10);
  }
  if (ferror(stdin)) {
    perror("split");
    return 1;
  }
  free(line);
  printf("%llu\n", (unsigned long long)sum);
  return 0;
}
