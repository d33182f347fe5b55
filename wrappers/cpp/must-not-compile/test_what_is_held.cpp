#include <abt.hpp>
bool misuse(abt::table table)
{
#ifdef MISUSE
    return table.held(1, 100) ? true : false;
#else
    return table.held(1, 100)->has_value();
#endif
}
