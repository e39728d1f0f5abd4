/* The calls of include/clickpull.h as exports of the library, and its version. This stands outside what is proved.
 *
 * The header defines its calls inline, over the exports that are proved. Here they are defined once more, for languages that load a library
 * by the names of its functions. packaging/making/library.py compiles this file into the archive and the shared library that are installed.
 */
#define CLK_EXPORT_CALLS
#include "../include/clickpull.h"

const char *clk_version(void) {
    return CLK_VERSION;
}
