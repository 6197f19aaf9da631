/* The first line of the request is a regular expression, the rest is searched line by line: a line of the reply for each that matches, with the
 * places of the match and of its groups. Operation N allows N errors. */
#include "guest.h"
#include <stdio.h>
#include <string.h>
#include "tre.h"

enum { GROUPS = 10 };

static void put_places(const regmatch_t *groups)
{
    for (int i = 0; i < GROUPS && groups[i].rm_so >= 0; i++) {
        char text[32];
        guest_put(text, (size_t)sprintf(text, " %d-%d", (int)groups[i].rm_so, (int)groups[i].rm_eo));
    }
}

GUEST(operation)
{
    size_t length;
    char *line = strtok((char *)guest_input(&length), "\n");
    regex_t found;
    regaparams_t allowed;
    int matches = 0;
    if (!line || tre_regcomp(&found, line, REG_EXTENDED) != REG_OK)
        return -1;
    tre_regaparams_default(&allowed);
    allowed.max_cost = operation;
    while ((line = strtok(NULL, "\n"))) {
        regmatch_t groups[GROUPS];
        regamatch_t match = { .nmatch = GROUPS, .pmatch = groups };
        if (tre_regaexec(&found, line, &match, allowed, 0) != REG_OK)
            continue;
        matches++;
        guest_put(line, strlen(line));
        put_places(groups);
        guest_byte('\n');
    }
    tre_regfree(&found);
    return guest_end(matches);
}
