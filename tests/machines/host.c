/* The list of calls on the machine that the tests run on. */
#include "calls.h"

#include <stdio.h>

void say(const char *text)
{
    fputs(text, stdout);
}

int main(void)
{
    return make_calls() == 0 ? 0 : 1;
}
