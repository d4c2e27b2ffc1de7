/*
 * Runs every call of the C interface at its edges. Each file and each output stands at the end of an allocation of
 * exactly its size.
 */
#include "check.h"
#include "edges.h"

int main(void)
{
    lengths();
    answers();
    bases();
    tables();
    partial();
    marks();
    registers();
    variables();
    limits();
    dats();
    overlaps();
    return report();
}
