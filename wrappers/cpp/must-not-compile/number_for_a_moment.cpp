#include <abt.hpp>
void misuse(abt::policer policer)
{
#ifdef MISUSE
    (void)policer.arrive(5, abt::code(0x53e8));
#else
    (void)policer.arrive(abt::picoseconds(5), abt::code(0x53e8));
#endif
}
