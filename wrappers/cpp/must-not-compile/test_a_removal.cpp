#include <abt.hpp>
bool misuse(abt::table table)
{
#ifdef MISUSE
    return table.remove(1, 100) ? true : false;
#else
    return table.remove(1, 100) == true;
#endif
}
