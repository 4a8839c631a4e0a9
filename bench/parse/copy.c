/* Copies standard input to standard output line by line: what any reader of lines does at least. */
#include <stdio.h>
#include <stdlib.h>

int main(void) {
    char *line = NULL;
    size_t room = 0;
    ssize_t size;
    while ((size = getline(&line, &room, stdin)) > 0)
        fwrite(line, 1, size, stdout);
    free(line);
    return 0;
}
