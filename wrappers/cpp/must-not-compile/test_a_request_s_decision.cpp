#include <abt.hpp>
bool misuse(abt::table table, const abt::request &request)
{
#ifdef MISUSE
    return table.take(request) ? true : false;
#else
    return table.take(request)->what == abt::decision::pass;
#endif
}
