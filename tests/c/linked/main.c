/* A program of two files that include the header, linked with the installed archive. It stands outside what is proved.
 *
 * The archive has the header's calls too, as exports by their names, and the call of clk_version brings these in. The inline calls of both
 * files don't collide with them. tests/library builds the program as C and as C++. */
#include "other.h"

#include <stdio.h>
#include <string.h>

int main(void) {
    clk_router router;
    clk_offered offered;
    clk_packet packet;
    if (strcmp(clk_version(), CLK_VERSION) != 0)
        return fprintf(stderr, "the library is %s, and the header %s\n", clk_version(), CLK_VERSION), 1;
    if (open_elsewhere(&router) != CLK_OK || clk_offer(&router, 0, 1500, &offered) != CLK_OK || offered.outcome != CLK_ACCEPTED)
        return fputs("the packet isn't accepted\n", stderr), 1;
    if (clk_pull(&router, 0, 0, &packet) != CLK_OK || packet.length != 1500)
        return fputs("the packet isn't emitted\n", stderr), 1;
    close_elsewhere(&router);
    return clk_pull(&router, 0, 0, &packet) == CLK_SHUT ? 0 : 1;
}
