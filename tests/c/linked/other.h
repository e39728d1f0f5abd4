/* What the other file of this program has. It stands outside what is proved. */
#ifndef OTHER_H
#define OTHER_H

#include "clickpull.h"

/* Opens a router with the sender 0 and one device. */
clk_status open_elsewhere(clk_router *router);

/* Closes it. */
void close_elsewhere(clk_router *router);

#endif
