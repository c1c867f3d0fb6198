/*
 * Prints the accepted settings and their counts, by the second implementation, as the C file that every machine's list of
 * calls is compiled with: a controller has no room for the second implementation itself.
 */
#include "cases.h"

int main(void)
{
    second_init();
    setting_count = accepted_settings(settings, UINT64_MAX);
    printf("#include \"calls.h\"\n\nconst setting settings[SETTINGS] = {\n");
    for (size_t number = 0; number < setting_count; number++) {
        const setting *s = &settings[number];
        printf("    {%" PRIu64 ", %" PRIu64 ", %" PRIu64 ", UINT64_C(%" PRIu64 ")},\n", SETTING_VALUES(s), s->count);
    }
    printf("};\n");
    return setting_count == ACCEPTED_SETTINGS ? 0 : 1;
}
