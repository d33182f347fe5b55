#include <abt.hpp>
void misuse(abt::idle idle)
{
#ifdef MISUSE
    abt::idle second = idle;
#else
    abt::idle second = std::move(idle);
#endif
    (void)second;
}
