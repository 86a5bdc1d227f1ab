/* Writes a line so many times, by a call each, and does nothing else. For tools/measure/measure-follow.
 *
 *     told_lines COUNT LINE */
#include <stdlib.h>
#include <string.h>
#include <unistd.h>

int main(int count, char **words)
{
    if (count != 3)
        return 1;
    size_t size = strlen(words[2]);
    char *line = strcat(strcpy(malloc(size + 2), words[2]), "\n");
    for (long more = atol(words[1]); more > 0; more--)
        if (write(1, line, size + 1) != (ssize_t)(size + 1))
            return 1;
    return 0;
}
