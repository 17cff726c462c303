/* The message of every refusal number, those that the command cannot draw among them: 22 and 33. */
#include "../../tool/refusals.h"

#include <stdlib.h>
#include <string.h>

int main(void)
{
    char file[] = "FILE.ntb";
    struct session none = {.file = file, .node = NOEMATHU_NONE};
    for (uint32_t number = 1; number < 64; number++)
        if (strcmp(noemathu_text(number), "unknown refusal") != 0)
            refused(&none, (noemathu_refusal){number, 7, number == 3 || (number >= 12 && number <= 14) ? 8 : 0}, NULL);
    return 0;
}
