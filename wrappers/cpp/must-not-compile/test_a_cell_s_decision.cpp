#include <abt.hpp>
bool misuse(abt::table table, const abt::cell &cell)
{
#ifdef MISUSE
    return table.take(cell) ? true : false;
#else
    return table.take(cell)->what == abt::decision::pass;
#endif
}
