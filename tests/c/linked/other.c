/* The other file of this program. It stands outside what is proved. */
#include "other.h"

#include <string.h>

clk_status open_elsewhere(clk_router *router) {
    const char *tree = "a :: Sender(0); q :: Queue(1); d :: ToDevice(link); a -> q -> d;";
    return clk_open(tree, strlen(tree), router, NULL);
}

void close_elsewhere(clk_router *router) {
    clk_close(router);
}
