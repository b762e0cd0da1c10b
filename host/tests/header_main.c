/* Runs the checks of header.c or header.cc, from another unit that has the
 * header. */

#include <stdio.h>

#include "shelf.h"

int check_header(void);

int main(void)
{
    int line = check_header();

    if (line != 0)
        printf("version %d: the check in line %d fails\n", SHELF_VERSION, line);
    return line != 0;
}
