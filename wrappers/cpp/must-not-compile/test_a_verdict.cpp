#include <abt.hpp>
bool misuse(abt::policer policer)
{
#ifdef MISUSE
    return policer.arrive(abt::picoseconds(0), abt::code(0x53e8)) ? true : false;
#else
    return policer.arrive(abt::picoseconds(0), abt::code(0x53e8)) == abt::verdict::conforming;
#endif
}
