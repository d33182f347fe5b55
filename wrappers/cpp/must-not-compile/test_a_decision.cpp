#include <abt.hpp>
bool misuse(abt::table table, const abt::answer &answer)
{
#ifdef MISUSE
    return table.take(answer) ? true : false;
#else
    return table.take(answer) == abt::decision::pass;
#endif
}
