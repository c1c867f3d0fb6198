/* The list of calls on a controller, emulated or with a debugger, over examples/controller/start.c. */
#include "calls.h"
#include "firmware.h"

void say(const char *text)
{
    firmware_say(text);
}

int main(void)
{
    return make_calls() == 0 ? 0 : 1;
}
